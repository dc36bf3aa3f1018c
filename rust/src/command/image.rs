//! Images to look at: planes turned into colours, parts put together, and written as PNG or PPM.
//!
//! Colours are those of BT.709 in limited range, whatever the stream says: luma 16 to 235 and chroma 16 to 240 at depth
//! 8, and their multiples above. A chroma sample serves the luma samples it belongs to: four in 4:2:0, two beside each
//! other in 4:2:2, one in 4:4:4. A PNG here is not packed: its deflate blocks are stored, which every reader takes and
//! which needs no compressor.

use steamgusset::Sizes;

/// 8-bit red, green and blue.
pub type Colour = [u8; 3];

/// An image, row after row.
pub struct Image {
    width: usize,
    pixels: Vec<Colour>,
}

/// A part of an image: its left upper corner and its size.
pub struct Part {
    pub x: usize,
    pub y: usize,
    pub width: usize,
    pub height: usize,
}

impl Image {
    pub fn new(width: usize, pixels: Vec<Colour>) -> Image {
        Image { width, pixels }
    }

    /// An image of one colour.
    pub fn plain(width: usize, height: usize, colour: Colour) -> Image {
        Image::new(width, vec![colour; width * height])
    }

    /// A picture's planes in colour; a monochrome one in grey. The depths are luma's and chroma's.
    pub fn of_planes(depths: [u8; 2], sizes: &Sizes, planes: [&[u16]; 3]) -> Image {
        let [luma, cb, cr] = planes;
        let ([width, across, _], [height, down, _]) = (sizes.width, sizes.height);
        // What a step of depth 8 is at the component's own.
        let [luma_unit, chroma_unit] = depths.map(|depth| f64::from(1u32 << (depth - 8)));
        let chroma = |plane: &[u16], place: usize| {
            let (x, y) = (place % width * across / width, place / width * down / height);
            plane.get(y * across + x).map_or(0.0, |sample| (f64::from(*sample) / chroma_unit - 128.0) / 224.0)
        };
        let pixel = |(place, sample): (usize, &u16)| {
            let light = (f64::from(*sample) / luma_unit - 16.0) / 219.0;
            colour(light, chroma(cb, place), chroma(cr, place))
        };
        Image::new(width, luma.iter().enumerate().map(pixel).collect())
    }

    /// What became of luma, amplified: grey 128 is no change, lighter is more.
    pub fn of_difference(sizes: &Sizes, before: &[u16], after: &[u16], amplify: u8) -> Image {
        let pixel = |(before, after): (&u16, &u16)| {
            let change = (i32::from(*after) - i32::from(*before)) * i32::from(amplify);
            [(128 + change).clamp(0, 255) as u8; 3]
        };
        Image::new(sizes.width[0], before.iter().zip(after).map(pixel).collect())
    }

    pub fn width(&self) -> usize {
        self.width
    }

    pub fn height(&self) -> usize {
        self.pixels.len() / self.width
    }

    /// A part as an image of its own.
    pub fn part(&self, part: &Part) -> Image {
        let row = |y: usize| &self.pixels[y * self.width + part.x..][..part.width];
        Image::new(part.width, (part.y..part.y + part.height).flat_map(row).copied().collect())
    }

    /// The image with every pixel as a square of so many times so many.
    pub fn enlarged(&self, times: usize) -> Image {
        let width = self.width * times;
        let pixel = |place: usize| self.pixels[place / width / times * self.width + place % width / times];
        Image::new(width, (0..self.pixels.len() * times * times).map(pixel).collect())
    }

    /// The image with only one of so many rows and columns.
    pub fn thinned(&self, step: usize) -> Image {
        let row = |row: &[Colour]| row.iter().step_by(step).copied().collect::<Vec<_>>();
        Image::new(self.width.div_ceil(step), self.pixels.chunks(self.width).step_by(step).flat_map(row).collect())
    }

    /// Puts another image over this one, its left upper corner at (x, y); all of it must fit.
    pub fn put(&mut self, image: &Image, x: usize, y: usize) {
        for (number, row) in image.pixels.chunks(image.width).enumerate() {
            self.pixels[(y + number) * self.width + x..][..image.width].copy_from_slice(row);
        }
    }

    /// Draws the border of a part, within it, over what is there.
    pub fn outline(&mut self, part: &Part, colour: Colour) {
        let Part { x, y, width, height } = *part;
        let (across, down) = (Image::plain(width, 1, colour), Image::plain(1, height, colour));
        self.put(&across, x, y);
        self.put(&across, x, y + height - 1);
        self.put(&down, x, y);
        self.put(&down, x + width - 1, y);
    }

    pub fn to_ppm(&self) -> Vec<u8> {
        let mut bytes = format!("P6\n{} {}\n255\n", self.width, self.height()).into_bytes();
        bytes.extend(self.pixels.as_flattened());
        bytes
    }

    pub fn to_png(&self) -> Vec<u8> {
        let mut header = Vec::new();
        header.extend((self.width as u32).to_be_bytes());
        header.extend((self.height() as u32).to_be_bytes());
        // Depth 8, colour type RGB, and the only compression, filter and interlace methods but one.
        header.extend([8, 2, 0, 0, 0]);
        let mut rows = Vec::with_capacity(self.height() * (1 + 3 * self.width));
        for row in self.pixels.chunks(self.width) {
            rows.push(0); // This row is not filtered.
            rows.extend(row.as_flattened());
        }
        let mut bytes = b"\x89PNG\r\n\x1a\n".to_vec();
        chunk(&mut bytes, b"IHDR", &header);
        chunk(&mut bytes, b"IDAT", &zlib_stored(&rows));
        chunk(&mut bytes, b"IEND", &[]);
        bytes
    }
}

/// Red, green and blue of BT.709, from light between 0 and 1 and colour differences around 0.
fn colour(light: f64, cb: f64, cr: f64) -> Colour {
    let rgb = [light + 1.5748 * cr, light - 0.1873 * cb - 0.4681 * cr, light + 1.8556 * cb];
    rgb.map(|part| (part.clamp(0.0, 1.0) * 255.0).round() as u8)
}

fn chunk(bytes: &mut Vec<u8>, kind: &[u8; 4], content: &[u8]) {
    bytes.extend((content.len() as u32).to_be_bytes());
    let start = bytes.len();
    bytes.extend(kind);
    bytes.extend(content);
    let check = crc32(&bytes[start..]);
    bytes.extend(check.to_be_bytes());
}

/// The bytes as a zlib stream of stored blocks.
fn zlib_stored(bytes: &[u8]) -> Vec<u8> {
    // Window of 32768, and a check that makes the two bytes a multiple of 31.
    let mut stream = vec![0x78, 0x01];
    let blocks = bytes.len().div_ceil(0xFFFF);
    for (number, block) in bytes.chunks(0xFFFF).enumerate() {
        let length = block.len() as u16;
        stream.push(u8::from(number + 1 == blocks));
        stream.extend(length.to_le_bytes());
        stream.extend((!length).to_le_bytes());
        stream.extend(block);
    }
    stream.extend(adler32(bytes).to_be_bytes());
    stream
}

fn adler32(bytes: &[u8]) -> u32 {
    let (mut sum, mut sum_of_sums) = (1, 0);
    for byte in bytes {
        sum = (sum + u32::from(*byte)) % 65521;
        sum_of_sums = (sum_of_sums + sum) % 65521;
    }
    sum_of_sums << 16 | sum
}

fn crc32(bytes: &[u8]) -> u32 {
    !bytes.iter().fold(!0, |crc, byte| CRC_TABLE[((crc ^ u32::from(*byte)) & 0xFF) as usize] ^ crc >> 8)
}

const CRC_TABLE: [u32; 256] = {
    let mut table = [0; 256];
    let mut byte = 0;
    while byte < 256 {
        table[byte] = crc_of_byte(byte as u32);
        byte += 1;
    }
    table
};

const fn crc_of_byte(byte: u32) -> u32 {
    let mut crc = byte;
    let mut bit = 0;
    while bit < 8 {
        crc = if crc & 1 == 1 { crc >> 1 ^ 0xEDB8_8320 } else { crc >> 1 };
        bit += 1;
    }
    crc
}

#[cfg(test)]
mod tests {
    use super::*;

    #[test]
    fn the_checks_are_the_known_ones() {
        assert_eq!(crc32(b"123456789"), 0xCBF4_3926);
        assert_eq!(adler32(b"Wikipedia"), 0x11E6_0398);
    }

    #[test]
    fn black_white_and_grey() {
        assert_eq!(colour(0.0, 0.0, 0.0), [0, 0, 0]);
        assert_eq!(colour(1.0, 0.0, 0.0), [255, 255, 255]);
        assert_eq!(colour(0.5, 0.0, 0.0), [128, 128, 128]);
    }

    /// One sample of Cr stands out, and so do the pixels that it belongs to.
    #[test]
    fn a_chroma_sample_colours_its_luma_samples() {
        let coloured = |across: usize, down: usize| {
            let sizes = Sizes { width: [8, across, across], height: [8, down, down], ..Sizes::default() };
            let mut cr = vec![128; across * down];
            cr[across + 1] = 240;
            let image = Image::of_planes([8, 8], &sizes, [&[128; 64], &vec![128; across * down], &cr]);
            let grey = image.pixels[0];
            (0..64).filter(|place| image.pixels[*place] != grey).map(|place| (place % 8, place / 8)).collect::<Vec<_>>()
        };
        assert_eq!(coloured(4, 4), [(2, 2), (3, 2), (2, 3), (3, 3)]);
        assert_eq!(coloured(4, 8), [(2, 1), (3, 1)]);
        assert_eq!(coloured(8, 8), [(1, 1)]);
    }

    /// The same picture at any two depths: a sample is as many times larger as its component's depth has bits more.
    #[test]
    fn each_component_goes_by_its_own_depth() {
        let sizes = Sizes { width: [8, 4, 4], height: [8, 4, 4], ..Sizes::default() };
        let at = |luma: u8, chroma: u8| {
            let (luma_sample, cb, cr) = (63 << (luma - 8), 102 << (chroma - 8), 240 << (chroma - 8));
            Image::of_planes([luma, chroma], &sizes, [&[luma_sample; 64], &[cb; 16], &[cr; 16]]).pixels
        };
        for (luma, chroma) in (8..=16).flat_map(|luma| (8..=16).map(move |chroma| (luma, chroma))) {
            assert_eq!(at(luma, chroma), at(8, 8), "{luma} {chroma}");
        }
    }

    #[test]
    fn red_is_red() {
        // BT.709 red at depth 8: Y 63, Cb 102, Cr 240.
        let red = colour((63.0 - 16.0) / 219.0, (102.0 - 128.0) / 224.0, (240.0 - 128.0) / 224.0);
        assert!(red[0] >= 254 && red[1] <= 1 && red[2] <= 1, "{red:?}");
    }
}
