//! Pair records of the library as the reference has them, and back.

use hurkeztor::entries::PairRecord;
use reference::reason::Record;

pub fn to_reference(record: &PairRecord) -> Record {
    Record {
        source: record.source,
        sink: record.sink,
        source_statement: record.source_statement,
        sink_statement: record.sink_statement,
        kind: record.kind,
    }
}

pub fn to_library(record: &Record) -> PairRecord {
    PairRecord {
        source: record.source,
        sink: record.sink,
        source_statement: record.source_statement,
        sink_statement: record.sink_statement,
        kind: record.kind,
    }
}
