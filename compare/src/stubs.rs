//! What jetdb's files lean on and what is not jetdb's reading: errors, pages, the storage.

/// Stands for format.rs: the one error that encoding.rs makes.
pub mod format {
    #[derive(Debug)]
    pub enum FormatError {
        InvalidEncoding,
    }
}

/// Stands for file.rs: the errors that form.rs makes, and a page reader that nothing calls.
pub mod file {
    #[derive(Debug)]
    #[allow(dead_code)]
    pub enum FileError {
        InvalidFormData { reason: &'static str },
        FormNotFound { name: String },
        Jet3FormsNotRead,
    }

    pub struct PageReader;
}

/// Stands for storage.rs: a storage of one form, with the streams that are put into it.
pub mod storage {
    use crate::file::{FileError, PageReader};

    pub struct StorageEntry {
        pub name: &'static str,
        pub data: Vec<u8>,
    }

    pub struct Folder;

    pub struct AccessStorage {
        pub entries: Vec<StorageEntry>,
        pub code_page: u16,
        pub jet3: bool,
    }

    pub fn read_access_storage(_: &mut PageReader) -> Result<AccessStorage, FileError> {
        unreachable!("there are no pages here")
    }

    pub fn find_top_folder(_: &[StorageEntry], name: &str) -> Option<Folder> {
        (name == "Forms").then_some(Folder)
    }

    pub fn folder_mapping(_: &[StorageEntry], _: Folder) -> Result<Vec<(String, String)>, FileError> {
        Ok(Vec::new())
    }

    pub fn object_stream<'a>(entries: &'a [StorageEntry], _: Folder, _: &str, stream: &str) -> Result<Option<&'a StorageEntry>, FileError> {
        Ok(entries.iter().find(|e| e.name == stream))
    }
}
