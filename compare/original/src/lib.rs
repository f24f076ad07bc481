//! dvb-si 12.0.1 as published, put together by build.rs.
include!(concat!(env!("OUT_DIR"), "/dvb-si/lib.rs"));
