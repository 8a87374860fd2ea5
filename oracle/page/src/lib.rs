//! The page's crates on generated images, held against the plain reading of document 01. There are only
//! tests here: `page/` itself knows nothing of `oracle/`.
