"use strict";
// Pieces of lines, and places on them. The program's JSON has a piece as [line, from, to], and a place as [line, at]; here they are
// { line, from, to } and { line, at }, with the id of the line as a text. Positions are in decimetres.

function pieceOf([line, from, to]) {
  return { line, from, to };
}

function placeOnLineOf([line, at]) {
  return { line, at };
}

function lengthOfPieces(pieces) {
  return pieces.reduce((sum, piece) => sum + piece.to - piece.from, 0);
}
