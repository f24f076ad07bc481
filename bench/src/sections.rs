//! Sections with their CRC (ISO/IEC 13818-1, 2.4.4; EN 300 468, 5.2.4).

/// A long form of version 0, current.
pub fn long(table_id: u8, extension: u16, number: u8, last: u8, body: &[u8]) -> Vec<u8> {
    let length = 5 + body.len() + 4;
    let mut bytes = vec![table_id, 0xB0 | (length >> 8) as u8, length as u8, (extension >> 8) as u8, extension as u8, 0xC1, number, last];
    bytes.extend_from_slice(body);
    let crc = petrizolu::crc(&bytes);
    bytes.extend_from_slice(&crc.to_be_bytes());
    bytes
}

/// An EIT of exactly `size` bytes, the only section of its table: events of 100 bytes, the last one with the rest.
pub fn eit(table_id: u8, service_id: u16, last_table_id: u8, size: usize) -> Vec<u8> {
    const EVENT_HEAD: usize = 12;
    let mut body = vec![0, 1, 0, 1, 0, last_table_id];
    let mut left = size - 18;
    while left > 0 {
        let event = if left >= 100 + EVENT_HEAD { 100 } else { left };
        let descriptors = event - EVENT_HEAD;
        body.extend_from_slice(&[0x12; 10]);
        body.extend_from_slice(&[0x80 | (descriptors >> 8) as u8, descriptors as u8]);
        body.extend(std::iter::repeat_n(0x55, descriptors));
        left -= event;
    }
    long(table_id, service_id, 0, 0, &body)
}

/// The same long form with another version_number.
pub fn of_version(mut section: Vec<u8>, version: u8) -> Vec<u8> {
    section.truncate(section.len() - 4);
    section[5] = 0xC1 | version << 1;
    let crc = petrizolu::crc(&section);
    section.extend_from_slice(&crc.to_be_bytes());
    section
}
