//! The two example tables of source document 000, built field by field.

/// Big-endian fields put down in order.
#[derive(Clone, Default)]
pub struct Fields(pub Vec<u8>);

impl Fields {
    pub fn new() -> Fields {
        Fields::default()
    }

    pub fn b(mut self, value: u8) -> Fields {
        self.0.push(value);
        self
    }

    pub fn w(mut self, value: u16) -> Fields {
        self.0.extend(value.to_be_bytes());
        self
    }

    pub fn l(mut self, value: u32) -> Fields {
        self.0.extend(value.to_be_bytes());
        self
    }

    pub fn ws(self, values: &[u16]) -> Fields {
        values.iter().fold(self, |fields, &value| fields.w(value))
    }

    pub fn ls(self, values: &[u32]) -> Fields {
        values.iter().fold(self, |fields, &value| fields.l(value))
    }

    pub fn bs(mut self, values: &[u8]) -> Fields {
        self.0.extend(values);
        self
    }

    /// Zero bytes up to a place.
    pub fn to(mut self, place: usize) -> Fields {
        assert!(self.0.len() <= place, "already past {place}");
        self.0.resize(place, 0);
        self
    }

    pub fn done(self) -> Vec<u8> {
        self.0
    }
}

/// The roman example, 104 bytes.
pub fn simple() -> Vec<u8> {
    let head = Fields::new().l(0x0001_0000).w(0).w(10).w(0).to(10);
    let head = head.w(0).w(48).w(0).to(16);
    let lookup = head.w(2).w(6).w(2).w(12).w(1).w(0).to(28);
    let lookup = lookup.w(2).w(2).w(0).to(34).w(275).w(3).w(28).to(40).w(0xFFFF).w(0xFFFF).w(0).w(0);
    let first = lookup.to(48).l(1).l(0).l(0x8000).l(0xFFFF_F500).l(0x8000).l(0xFFFF_F500).w(1).w(1);
    let second = first.to(76).l(1).l(0).l(0x2500).l(0xFFFF_F500).l(0x2500).l(0xFFFF_F500).w(2).w(2);
    second.to(104).done()
}

/// The kashida example, 444 bytes.
pub fn complex() -> Vec<u8> {
    let head = Fields::new().l(0x0001_0000).w(0).w(10).w(0).to(10);
    let head = head.w(168).w(48).w(128).to(16);
    let lookup = head.w(2).w(6).w(2).w(12).w(1).w(0).to(28);
    let lookup = lookup.w(2).w(2).w(0).to(34).w(226).w(3).w(28).to(40).w(0xFFFF).w(0xFFFF).w(0).w(0);
    let first = lookup.to(48).l(1).l(0).l(0x8000).l(0xFFFF_F500).l(0x8000).l(0xFFFF_F500).w(1).w(1);
    let second = first.to(76).l(2).l(0).l(0x2500).l(0xFFFF_F500).l(0x2500).l(0xFFFF_F500).w(2).w(2);
    let second = second.to(104).l(1).l(0x2500).l(0xFFFF_F500).l(0x2500).l(0xFFFF_F500).w(0x1000).w(2);
    let post = second.to(128).w(2).w(6).w(1).w(6).w(0).w(0).to(140).w(226).w(2).w(24).w(0xFFFF).w(0xFFFF).w(0);
    let post = post.to(152).l(1).w(1).w(1).l(12).w(226).w(0);
    let machine = post.to(168).w(276).w(0).l(0).to(176).w(5).w(8).w(236).w(256);
    let machine = machine.to(184).w(3).w(223).bs(&[4; 223]).b(0);
    let rows = machine.to(412).bs(&[1, 2, 1, 1, 0]).bs(&[1, 2, 1, 1, 0]).bs(&[1, 2, 1, 1, 1]).bs(&[1, 2, 1, 1, 0]);
    rows.to(432).w(246).w(1).w(246).w(0).w(251).w(0).to(444).done()
}
