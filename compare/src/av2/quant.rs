include!(env!("ORACLE_QUANT"));
