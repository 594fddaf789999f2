//! The six calls on a card: cameras CARD

use std::ffi::c_uchar;

#[repr(C)]
struct Answer {
    number: u32,
    page: u32,
    length: u64,
    pages: u64,
    tables: u64,
    keys: u64,
    free: u64,
}

#[link(name = "calstore", kind = "static")]
#[rustfmt::skip]
extern "C" {
    fn calstore_check(image: *const c_uchar, n: usize, scratch: *mut c_uchar, m: usize) -> Answer;
    fn calstore_get(image: *const c_uchar, n: usize, scratch: *mut c_uchar, m: usize, name: *const c_uchar, a: usize, key: *const c_uchar, b: usize, answer: *mut c_uchar, c: usize) -> Answer;
    fn calstore_next(image: *const c_uchar, n: usize, scratch: *mut c_uchar, m: usize, name: *const c_uchar, a: usize, key: *const c_uchar, b: usize, answer: *mut c_uchar, c: usize) -> Answer;
    fn calstore_put(image: *mut c_uchar, n: usize, scratch: *mut c_uchar, m: usize, name: *const c_uchar, a: usize, key: *const c_uchar, b: usize, value: *const c_uchar, c: usize) -> Answer;
    fn calstore_remove(image: *mut c_uchar, n: usize, scratch: *mut c_uchar, m: usize, name: *const c_uchar, a: usize, key: *const c_uchar, b: usize) -> Answer;
    fn calstore_create(image: *mut c_uchar, n: usize, scratch: *mut c_uchar, m: usize, name: *const c_uchar, a: usize) -> Answer;
}

/// A card in memory with the scratch that its calls work in. The slices are the caller's and do not overlap, which is all that the
/// library asks.
struct Card {
    image: Vec<u8>,
    scratch: Vec<u8>,
}

#[rustfmt::skip]
impl Card {
    /// The free pages as the card keeps them in bytes 28 to 31, one more than there are; none where it does not.
    fn kept_free(&self) -> Option<u32> {
        let kept = self.image[28..32].try_into().expect("four bytes");
        u32::from_be_bytes(kept).checked_sub(1)
    }

    fn check(&mut self) -> Answer {
        unsafe { calstore_check(self.image.as_ptr(), self.image.len(), self.scratch.as_mut_ptr(), self.scratch.len()) }
    }

    fn get(&mut self, name: &[u8], key: &[u8], answer: &mut [u8]) -> Answer {
        let (i, s) = (&self.image, &mut self.scratch);
        unsafe { calstore_get(i.as_ptr(), i.len(), s.as_mut_ptr(), s.len(), name.as_ptr(), name.len(), key.as_ptr(), key.len(), answer.as_mut_ptr(), answer.len()) }
    }

    fn next(&mut self, name: &[u8], key: &[u8], answer: &mut [u8]) -> Answer {
        let (i, s) = (&self.image, &mut self.scratch);
        unsafe { calstore_next(i.as_ptr(), i.len(), s.as_mut_ptr(), s.len(), name.as_ptr(), name.len(), key.as_ptr(), key.len(), answer.as_mut_ptr(), answer.len()) }
    }

    fn put(&mut self, name: &[u8], key: &[u8], value: &[u8]) -> Answer {
        let (i, s) = (&mut self.image, &mut self.scratch);
        unsafe { calstore_put(i.as_mut_ptr(), i.len(), s.as_mut_ptr(), s.len(), name.as_ptr(), name.len(), key.as_ptr(), key.len(), value.as_ptr(), value.len()) }
    }

    fn remove(&mut self, name: &[u8], key: &[u8]) -> Answer {
        let (i, s) = (&mut self.image, &mut self.scratch);
        unsafe { calstore_remove(i.as_mut_ptr(), i.len(), s.as_mut_ptr(), s.len(), name.as_ptr(), name.len(), key.as_ptr(), key.len()) }
    }

    fn create(&mut self, name: &[u8]) -> Answer {
        let (i, s) = (&mut self.image, &mut self.scratch);
        unsafe { calstore_create(i.as_mut_ptr(), i.len(), s.as_mut_ptr(), s.len(), name.as_ptr(), name.len()) }
    }
}

fn main() {
    let Some(file) = std::env::args().nth(1) else {
        eprintln!("usage: cameras CARD");
        std::process::exit(2);
    };
    let image = std::fs::read(file).expect("the card");
    let scratch = vec![0; image.len()];
    let mut card = Card { image, scratch };

    println!("create lens: {}", card.create(b"lens").number);
    println!(
        "put cam1: {}",
        card.put(b"lens", b"cam1", b"f=1050 k1=-0.11").number
    );
    println!(
        "put cam2: {}",
        card.put(b"lens", b"cam2", b"f=985 k1=-0.09").number
    );
    println!(
        "pages left: {}",
        card.kept_free().expect("a done put keeps it")
    );

    let mut record = vec![0; 65535];
    let a = card.get(b"lens", b"cam2", &mut record);
    println!(
        "get cam2: {} {}",
        a.number,
        String::from_utf8_lossy(&record[..a.length as usize])
    );
    println!(
        "get cam3: {}",
        card.get(b"lens", b"cam3", &mut record).number
    );

    // the keys in their order: each is asked for with the one before, the first with the empty key
    let mut key = Vec::new();
    loop {
        let a = card.next(b"lens", &key, &mut record);
        if a.number != 0 {
            break;
        }
        key = record[..a.length as usize].to_vec();
        println!("next: {}", String::from_utf8_lossy(&key));
    }

    println!("remove cam1: {}", card.remove(b"lens", b"cam1").number);
    let a = card.check();
    assert_eq!(a.page, 0);
    println!(
        "check: {} pages {} tables {} keys {} free {}",
        a.number, a.pages, a.tables, a.keys, a.free
    );
}
