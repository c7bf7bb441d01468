export { Document, Fault, Node, errors, fragment, normalise, parse, parseWithPlaces } from './index.js';
export type { Attribute, Kind, Link, Normal, Page, ParseError, Quirks } from './index.js';
