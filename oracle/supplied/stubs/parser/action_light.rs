//! Stands where the parser's module of light actions stands; the supplied files ask nothing of it.
