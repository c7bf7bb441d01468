// Figpliers in WebAssembly: HTML pages to trees, normal text and cleaned text. An ES module for Node and browsers.
export * from './core.mjs';
export * from './cleaning.mjs';
