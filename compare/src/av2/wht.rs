include!(env!("ORACLE_WHT"));
