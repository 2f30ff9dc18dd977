//! Extended attributes of a file. An access control list is one, so a file without them could be open to others than before.
use std::fs::File;
use std::io;

#[cfg(target_os = "linux")]
mod system {
    use std::ffi::{CStr, c_char, c_int, c_void};
    use std::fs::File;
    use std::io;
    use std::os::fd::AsRawFd;

    unsafe extern "C" {
        fn flistxattr(fd: c_int, list: *mut c_char, size: usize) -> isize;
        fn fgetxattr(fd: c_int, name: *const c_char, value: *mut c_void, size: usize) -> isize;
        fn fsetxattr(fd: c_int, name: *const c_char, value: *const c_void, size: usize, flags: c_int) -> c_int;
        fn fremovexattr(fd: c_int, name: *const c_char) -> c_int;
    }

    /// The most bytes that Linux gives as a list of names or as a value.
    const MOST: usize = 65_536;

    fn filled(call: impl FnOnce(&mut [u8]) -> isize) -> io::Result<Vec<u8>> {
        let mut bytes = vec![0; MOST];
        let length = usize::try_from(call(&mut bytes)).map_err(|_| io::Error::last_os_error())?;
        bytes.truncate(length);
        Ok(bytes)
    }

    /// The names, each with a zero byte behind it.
    pub fn names(file: &File) -> io::Result<Vec<u8>> {
        // SAFETY: the buffer has as many bytes as is said.
        filled(|bytes| unsafe { flistxattr(file.as_raw_fd(), bytes.as_mut_ptr().cast(), bytes.len()) })
    }

    pub fn get(file: &File, name: &CStr) -> io::Result<Vec<u8>> {
        // SAFETY: as above, and the name ends in a zero byte.
        filled(|bytes| unsafe { fgetxattr(file.as_raw_fd(), name.as_ptr(), bytes.as_mut_ptr().cast(), bytes.len()) })
    }

    pub fn set(file: &File, name: &CStr, value: &[u8]) -> io::Result<()> {
        // SAFETY: the value has as many bytes as is said, and the name ends in a zero byte.
        match unsafe { fsetxattr(file.as_raw_fd(), name.as_ptr(), value.as_ptr().cast(), value.len(), 0) } {
            0 => Ok(()),
            _ => Err(io::Error::last_os_error()),
        }
    }

    pub fn remove(file: &File, name: &CStr) -> io::Result<()> {
        // SAFETY: the name ends in a zero byte.
        match unsafe { fremovexattr(file.as_raw_fd(), name.as_ptr()) } {
            0 => Ok(()),
            _ => Err(io::Error::last_os_error()),
        }
    }
}

/// The first attribute that could not be kept, and whether an access control list is among them.
#[derive(Debug)]
pub struct Lost {
    pub error: io::Error,
    pub is_list: bool,
}

#[cfg(target_os = "linux")]
fn each(names: &[u8]) -> impl Iterator<Item = &std::ffi::CStr> {
    names.split_inclusive(|byte| *byte == 0).filter_map(|name| std::ffi::CStr::from_bytes_with_nul(name).ok())
}

/// Gives a new file the attributes of an old one, and no others, as far as it can. Where the file system has none, there is nothing to do.
#[cfg(target_os = "linux")]
pub fn copy(old: &File, new: &File) -> Result<(), Lost> {
    let names = match system::names(old) {
        Err(error) if error.kind() == io::ErrorKind::Unsupported => return Ok(()),
        names => names.map_err(|error| Lost { error, is_list: true })?,
    };
    let made = system::names(new).map_err(|error| Lost { error, is_list: true })?;
    let mut lost: Option<Lost> = None;
    let mut tried = |name: &std::ffi::CStr, done: io::Result<()>| {
        // The system's own labels are its to give: it has given the new file one.
        if let (Err(error), false) = (done, name.to_bytes().starts_with(b"security.")) {
            let is_list = name.to_bytes().starts_with(b"system.") || lost.as_ref().is_some_and(|lost| lost.is_list);
            lost = Some(Lost { error: lost.take().map_or(error, |lost| lost.error), is_list });
        }
    };
    // A folder may give an access control list to each new file in it.
    for name in each(&made).filter(|name| each(&names).all(|kept| kept != *name)) {
        tried(name, system::remove(new, name));
    }
    for name in each(&names) {
        tried(name, system::get(old, name).and_then(|value| system::set(new, name, &value)));
    }
    lost.map_or(Ok(()), Err)
}

#[cfg(not(target_os = "linux"))]
pub fn copy(_old: &File, _new: &File) -> Result<(), Lost> {
    Ok(())
}

#[cfg(all(test, target_os = "linux"))]
mod tests {
    use super::*;
    use std::io::Write;

    #[test]
    fn copied() {
        let folder = std::env::temp_dir().join(format!("marker-attributes-{}", std::process::id()));
        std::fs::create_dir(&folder).unwrap();
        let (old, new) = (File::create(folder.join("old")).unwrap(), File::create(folder.join("new")).unwrap());
        let set = system::set(&old, c"user.crew", b"north").and_then(|()| system::set(&old, c"user.none", b""));
        if set.as_ref().is_err_and(|error| error.kind() == io::ErrorKind::Unsupported) {
            let _ = writeln!(io::stderr(), "    copied: skipped, since the file system of {} has no attributes", folder.display());
        } else {
            set.unwrap();
            copy(&old, &new).unwrap();
            assert_eq!(system::get(&new, c"user.crew").unwrap(), b"north");
            assert_eq!(system::get(&new, c"user.none").unwrap(), b"");
        }
        std::fs::remove_dir_all(folder).unwrap();
    }
}
