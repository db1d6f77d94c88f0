/* No C code is linked: this folder only tells `rt` that the crate declares functions of the page. */
