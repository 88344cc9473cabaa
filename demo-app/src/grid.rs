//! The grid between the ends and the link, against bursts: packets are put into its cells row by row, and sent column by column.

use crate::link::{self, Kind, HEAD};
use crate::options::Options;
use rlc8681::{Grid, Refusal};

/// Cells in a row.
pub const COLUMNS: u32 = 8;
/// The most bytes in a cell.
pub const LARGEST_CELL: u32 = 1500;
/// The length of the packet in a cell, which stands after its head; 0 in an empty cell.
const LENGTH: usize = 2;
/// What stands before the symbols in a repair packet.
const REPAIR_HEAD: usize = 8;

/// The bytes in a cell: head, length and the largest packet, which is one of repair, for a source packet has one symbol.
pub fn cell_size(options: &Options) -> u32 {
    (HEAD + LENGTH + REPAIR_HEAD) as u32 + options.repairs * options.symbol_size
}

/// The grid that the options tell, if they tell one.
fn grid(options: &Options) -> Option<Grid> {
    (options.interleave > 0).then(|| Grid { symbol_size: cell_size(options), rows: options.interleave, columns: COLUMNS })
}

/// The cells of a grid, in the order in which they stand.
pub struct Cells {
    bytes: Vec<u8>,
    size: usize,
}

impl Cells {
    pub fn iter_mut(&mut self) -> impl Iterator<Item = &mut [u8]> {
        self.bytes.chunks_exact_mut(self.size)
    }
}

/// Number, kind, flow and packet of a cell; none for an empty or a foreign one.
pub fn read(cell: &mut [u8]) -> Option<(u32, Kind, u8, &mut [u8])> {
    let (number, kind, flow, rest) = link::read(cell)?;
    if rest.len() < LENGTH || !matches!(kind, Kind::Source | Kind::Repair) {
        return None;
    }
    let (length, packet) = rest.split_at_mut(LENGTH);
    let length = usize::from(u16::from_be_bytes([length[0], length[1]]));
    Some((number, kind, flow, packet.get_mut(..length).filter(|packet| !packet.is_empty())?))
}

/// The sending side: a grid that is filled row by row.
pub struct Filling {
    grid: Grid,
    taken: Vec<u8>,
}

impl Filling {
    pub fn new(options: &Options) -> Option<Filling> {
        grid(options).map(|grid| Filling { grid, taken: Vec::with_capacity(grid.bytes()) })
    }

    /// Puts a packet into the next cell, by the datagram that would bring it straight: head and packet.
    pub fn put(&mut self, datagram: &[u8]) {
        let (head, packet) = datagram.split_at(HEAD.min(datagram.len()));
        let end = self.taken.len() + self.grid.symbol_size as usize;
        self.taken.extend_from_slice(head);
        self.taken.extend_from_slice(&(packet.len() as u16).to_be_bytes());
        self.taken.extend_from_slice(packet);
        self.taken.resize(end, 0);
    }

    pub fn is_empty(&self) -> bool {
        self.taken.is_empty()
    }

    pub fn is_full(&self) -> bool {
        self.taken.len() >= self.grid.bytes()
    }

    /// The cells in send order, where the grid is filled up with empty ones. The next packet begins another grid.
    pub fn send(&mut self) -> Result<Cells, Refusal> {
        self.taken.resize(self.grid.bytes(), 0);
        let mut bytes = vec![0; self.grid.bytes()];
        self.grid.interleave(&self.taken, &mut bytes)?;
        self.taken.clear();
        Ok(Cells { bytes, size: self.grid.symbol_size as usize })
    }
}

/// The receiving side: a grid whose cells come in send order, or not at all.
pub struct Collecting {
    grid: Grid,
    /// Which grid of the stream it is, and its cells at their places in send order: empty where none came.
    which: u32,
    sent: Vec<u8>,
}

impl Collecting {
    pub fn new(options: &Options) -> Option<Collecting> {
        grid(options).map(|grid| Collecting { grid, which: 0, sent: vec![0; grid.bytes()] })
    }

    /// Keeps a cell, by its number in send order. Where it begins another grid, gives the one before, put back.
    pub fn put(&mut self, number: u32, cell: &[u8]) -> Result<Option<Cells>, Refusal> {
        let (cells, size) = (self.grid.rows * self.grid.columns, self.grid.symbol_size as usize);
        let (which, place) = (number / cells, (number % cells) as usize);
        let before = if which > self.which { Some(self.put_back()?) } else { None };
        self.which = self.which.max(which);
        // One of a grid that was put back before is too late.
        if which == self.which && cell.len() == size {
            self.sent[place * size..][..size].copy_from_slice(cell);
        }
        Ok(before)
    }

    /// The cells in the order in which they were filled. All are empty then.
    pub fn put_back(&mut self) -> Result<Cells, Refusal> {
        let mut bytes = vec![0; self.grid.bytes()];
        self.grid.deinterleave(&self.sent, &mut bytes)?;
        self.sent.fill(0);
        Ok(Cells { bytes, size: self.grid.symbol_size as usize })
    }
}

#[cfg(test)]
mod tests {
    use super::{read, Cells, Collecting, Filling, COLUMNS};
    use crate::link::{self, Kind, HEAD};
    use crate::options::Options;

    fn options(rows: u32) -> Options {
        Options { interleave: rows, symbol_size: 4, ..Options::default() }
    }

    /// Packet `number` has `number` + 1 bytes, up to the 12 of a repair packet.
    fn datagram(number: u32) -> Vec<u8> {
        let mut datagram = vec![number as u8; HEAD + 1 + number as usize % 12];
        let kind = if number % 3 == 0 { Kind::Repair } else { Kind::Source };
        link::write_head(&mut datagram, number, kind, number as u8);
        datagram
    }

    /// The packets of a grid as the datagrams that would bring them straight.
    fn packets(mut cells: Cells) -> Vec<Vec<u8>> {
        let told = cells.iter_mut().filter_map(read).map(|(number, kind, flow, packet)| {
            let mut datagram = vec![0; HEAD];
            link::write_head(&mut datagram, number, kind, flow);
            datagram.extend_from_slice(packet);
            datagram
        });
        told.collect()
    }

    #[test]
    fn what_is_not_lost_comes_back_in_order() {
        for rows in [1, 2, 5, 255] {
            let cells = rows * COLUMNS;
            // The second grid is not full.
            let all = cells + cells / 2 + 1;
            let (mut filling, mut collecting) = (Filling::new(&options(rows)).unwrap(), Collecting::new(&options(rows)).unwrap());
            let (mut sent, mut back, mut lost) = (0, Vec::new(), Vec::new());
            for number in 0..all {
                assert!(!filling.is_full());
                filling.put(&datagram(number));
                if filling.is_full() || number + 1 == all {
                    for cell in filling.send().unwrap().iter_mut() {
                        // As many neighbours as there are rows
                        if (3..3 + rows).contains(&sent) {
                            lost.push(read(cell).unwrap().0);
                        } else if let Some(before) = collecting.put(sent, cell).unwrap() {
                            back.extend(packets(before));
                        }
                        sent += 1;
                    }
                    assert!(filling.is_empty());
                }
            }
            back.extend(packets(collecting.put_back().unwrap()));
            assert_eq!((sent, lost.len()), (2 * cells, rows as usize));
            assert_eq!(back, (0..all).filter(|number| !lost.contains(number)).map(datagram).collect::<Vec<_>>());
            lost.sort_unstable();
            assert!(lost.windows(2).all(|two| two[0] / COLUMNS < two[1] / COLUMNS), "{lost:?}");
        }
    }

    #[test]
    fn foreign_cells_bring_nothing() {
        let mut filling = Filling::new(&options(1)).unwrap();
        filling.put(&datagram(7));
        let cell = filling.send().unwrap().iter_mut().next().unwrap().to_vec();
        assert!(read(&mut cell.clone()).is_some());
        // Empty, of another kind, too long a length, cut off
        for (at, byte) in [(7, 0), (4, 2), (4, 3), (4, 9), (6, 1)] {
            let mut cell = cell.clone();
            cell[at] = byte;
            assert!(read(&mut cell).is_none(), "{at} {byte}");
        }
        assert!((0..10).all(|length| read(&mut cell.clone()[..length]).is_none()));
        // Too short, too long, of a grid before, and the last number of all
        let mut collecting = Collecting::new(&options(1)).unwrap();
        assert!(collecting.put(9, &cell[1..]).unwrap().is_some());
        assert!(collecting.put(15, &[&cell[..], &[0]].concat()).unwrap().is_none());
        assert!(collecting.put(3, &cell).unwrap().is_none());
        assert_eq!(packets(collecting.put(u32::MAX, &cell).unwrap().unwrap()).len(), 0);
        assert_eq!(packets(collecting.put_back().unwrap()).len(), 1);
        assert!(Filling::new(&options(0)).is_none() && Collecting::new(&options(0)).is_none());
    }
}
