//! What libbluray makes of a clip file, as its header clpi_data.h has it (1.3.4), and its two calls, found when the program
//! runs: without the library there is nothing to link.

use std::ffi::{CStr, CString, c_char, c_int, c_void};
use std::path::Path;

/// A sequence with one system time clock.
#[repr(C)]
pub struct StcSeq {
    pub pcr_pid: u16,
    pub spn_stc_start: u32,
    pub presentation_start_time: u32,
    pub presentation_end_time: u32,
}

/// A sequence with one arrival time clock.
#[repr(C)]
pub struct AtcSeq {
    pub spn_atc_start: u32,
    pub num_stc_seq: u8,
    pub offset_stc_id: u8,
    pub stc_seq: *const StcSeq,
}

/// The sequences.
#[repr(C)]
pub struct SeqInfo {
    pub num_atc_seq: u8,
    pub atc_seq: *const AtcSeq,
}

/// The TS type block.
#[repr(C)]
pub struct TsType {
    pub validity: u8,
    pub format_id: [u8; 5],
}

/// The ClipInfo.
#[repr(C)]
pub struct ClipInfo {
    pub clip_stream_type: u8,
    pub application_type: u8,
    pub is_atc_delta: u8,
    pub ts_recording_rate: u32,
    pub num_source_packets: u32,
    pub ts_type_info: TsType,
    pub atc_delta_count: u8,
    pub atc_delta: *const c_void,
    pub font_count: u8,
    pub font: *const c_void,
}

/// A stream.
#[repr(C)]
pub struct ProgStream {
    pub pid: u16,
    pub coding_type: u8,
    pub format: u8,
    pub rate: u8,
    pub aspect: u8,
    pub oc_flag: u8,
    pub char_code: u8,
    pub lang: [u8; 4],
    pub cr_flag: u8,
    pub dynamic_range_type: u8,
    pub color_space: u8,
    pub hdr_plus_flag: u8,
    pub isrc: [u8; 12],
}

/// A program.
#[repr(C)]
pub struct Prog {
    pub spn_program_sequence_start: u32,
    pub program_map_pid: u16,
    pub num_streams: u8,
    pub num_groups: u8,
    pub streams: *const ProgStream,
}

/// The programs.
#[repr(C)]
pub struct ProgInfo {
    pub num_prog: u8,
    pub progs: *const Prog,
}

/// A coarse row.
#[repr(C)]
pub struct EpCoarse {
    pub ref_ep_fine_id: c_int,
    pub pts_ep: c_int,
    pub spn_ep: u32,
}

/// A fine row.
#[repr(C)]
pub struct EpFine {
    pub is_angle_change_point: u8,
    pub i_end_position_offset: u8,
    pub pts_ep: c_int,
    pub spn_ep: c_int,
}

/// A map.
#[repr(C)]
pub struct EpMapEntry {
    pub pid: u16,
    pub ep_stream_type: u8,
    pub num_ep_coarse: c_int,
    pub num_ep_fine: c_int,
    pub ep_map_stream_start_addr: u32,
    pub coarse: *const EpCoarse,
    pub fine: *const EpFine,
}

/// The CPI.
#[repr(C)]
pub struct Cpi {
    pub kind: u8,
    pub num_stream_pid: u8,
    pub entry: *const EpMapEntry,
}

/// A clip, as far as it is looked at here.
#[repr(C)]
pub struct Clip {
    pub type_indicator: u32,
    pub type_indicator2: u32,
    pub starts: [u32; 5],
    pub clip: ClipInfo,
    pub sequence: SeqInfo,
    pub program: ProgInfo,
    pub cpi: Cpi,
}

unsafe extern "C" {
    /// Opens a shared library.
    fn dlopen(name: *const c_char, flags: c_int) -> *mut c_void;
    /// The address of a function in it.
    fn dlsym(library: *mut c_void, name: *const c_char) -> *mut c_void;
}

/// The version whose structs these are.
const VERSION: [c_int; 3] = [1, 3, 4];

/// libbluray's two calls.
#[derive(Clone, Copy)]
pub struct Library {
    read: unsafe extern "C" fn(*const c_char) -> *mut Clip,
    free: unsafe extern "C" fn(*mut Clip),
}

impl Library {
    /// The library, or none where it isn't installed or has another version, whose structs may be others.
    pub fn find() -> Option<Self> {
        let find = |library: *mut c_void, name: &CStr| {
            // SAFETY: the library is open and the name ends in a zero byte.
            let call = unsafe { dlsym(library, name.as_ptr()) };
            (!call.is_null()).then_some(call)
        };
        // SAFETY: a plain name; the library is bound at once (2) and stays open.
        let library = unsafe { dlopen(c"libbluray.so.2".as_ptr(), 2) };
        if library.is_null() {
            return None;
        }
        let version = find(library, c"bd_get_version")?;
        let (read, free) = (find(library, c"bd_read_clpi")?, find(library, c"bd_free_clpi")?);
        let mut numbers = [0; 3];
        let [major, minor, micro] = &mut numbers;
        // SAFETY: bluray.h declares these calls with these types.
        let calls = unsafe {
            let version: unsafe extern "C" fn(&mut c_int, &mut c_int, &mut c_int) = std::mem::transmute(version);
            version(major, minor, micro);
            Library { read: std::mem::transmute(read), free: std::mem::transmute(free) }
        };
        (numbers == VERSION).then_some(calls)
    }

    /// Reads a file and looks at what it was read to; none where it is refused.
    pub fn read<T>(self, path: &Path, look: impl FnOnce(&Clip) -> T) -> Option<T> {
        let path = CString::new(path.to_str()?).ok()?;
        // SAFETY: the path ends in a zero byte; what is handed back is looked at before it is given back.
        unsafe {
            let clip = (self.read)(path.as_ptr());
            let seen = clip.as_ref().map(look)?;
            (self.free)(clip);
            Some(seen)
        }
    }
}

/// The rows behind a pointer.
pub fn rows<T>(first: &*const T, count: usize) -> &[T] {
    if count == 0 || first.is_null() {
        return &[];
    }
    // SAFETY: libbluray counts the rows that it has made room for and filled; they live as long as the row that names them.
    unsafe { std::slice::from_raw_parts(*first, count) }
}
