// The one file of this page that the bank writes. An upgrade leaves it as it is.

// What stands at the head of each printed ticket and batch. What is empty is a line to write on.
export const BANK = "";

// The branches, each with its least and its greatest desk: { name: "Main Street", from: 1, to: 9 }.
export const BRANCHES = [];

// A payment of more dollars than this is asked about once more. Without a number none is.
export const ASK_ABOVE = null;

// The words that the bank wants otherwise, by the tables and keys of words.js: { TEXTS: { name: "Bond window" }, HEAD: { user: (name) => `Cashier ${name}` } }.
export const WORDS = {};
