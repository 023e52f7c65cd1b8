//! Headers of the European Data Format, with anything in the places that the
//! import reads. The places are written down here; the plain importer works them
//! out from the widths.

/// Where the header length stands, in eight bytes.
pub const LENGTH_PLACE: usize = 184;

/// Where the signal count stands, in four bytes.
pub const COUNT_PLACE: usize = 252;

/// Where the unit of a signal stands, in eight bytes, of so many signals.
pub fn unit_place(signals: usize, signal: usize) -> usize {
    256 + 96 * signals + 8 * signal
}

/// What stands in the places that the import reads. Texts are filled up with
/// spaces.
#[derive(Clone, Debug)]
pub struct Header {
    pub count: Vec<u8>,
    pub length: Vec<u8>,
    /// By signal.
    pub units: Vec<Vec<u8>>,
}

impl Header {
    /// The header of signals with these units.
    pub fn new<U: AsRef<[u8]>>(units: &[U]) -> Header {
        let signals = units.len();
        Header {
            count: signals.to_string().into_bytes(),
            length: (256 * (signals + 1)).to_string().into_bytes(),
            units: units.iter().map(|unit| unit.as_ref().to_vec()).collect(),
        }
    }

    /// The same with another text for the signal count.
    pub fn count(mut self, count: &[u8]) -> Header {
        self.count = count.to_vec();
        self
    }

    /// The same with another text for the header length.
    pub fn length(mut self, length: &[u8]) -> Header {
        self.length = length.to_vec();
        self
    }

    /// The file, with no byte behind its header. What the import does not read is
    /// as in a recording of the night of 16 November 2026.
    pub fn file(&self) -> Vec<u8> {
        let signals = self.units.len();
        let mut file = vec![b' '; 256 * (signals + 1)];
        put(&mut file, 0, b"0");
        put(&mut file, 8, b"X X X X");
        put(&mut file, 88, b"Startdate 16-NOV-2026 X X X");
        put(&mut file, 168, b"16.11.2622.30.00");
        put(&mut file, LENGTH_PLACE, &self.length);
        put(&mut file, 236, b"960");
        put(&mut file, 244, b"30");
        put(&mut file, COUNT_PLACE, &self.count);
        for (signal, unit) in self.units.iter().enumerate() {
            put(&mut file, 256 + 16 * signal, label(unit));
            put(&mut file, 256 + 16 * signals + 80 * signal, b"Pneumotach");
            put(&mut file, unit_place(signals, signal), unit);
            put(&mut file, 256 + 104 * signals + 8 * signal, b"-120");
            put(&mut file, 256 + 112 * signals + 8 * signal, b"120");
            put(&mut file, 256 + 120 * signals + 8 * signal, b"-32768");
            put(&mut file, 256 + 128 * signals + 8 * signal, b"32767");
            put(&mut file, 256 + 136 * signals + 80 * signal, b"LP:5Hz");
            put(&mut file, 256 + 216 * signals + 8 * signal, b"750");
        }
        file
    }
}

/// The label of a signal; one without a unit has the annotations of EDF+.
fn label(unit: &[u8]) -> &'static [u8] {
    match unit.is_empty() {
        true => b"EDF Annotations",
        false => b"Resp",
    }
}

/// Puts bytes in their place in a file.
pub fn put(file: &mut [u8], place: usize, bytes: &[u8]) {
    file[place..place + bytes.len()].copy_from_slice(bytes);
}
