"use strict";
// What the page carries, as files by their names.

// The bytes of a text in base64.
function bytesOfBase64(text) {
  if (Uint8Array.fromBase64) return Uint8Array.fromBase64(text);
  const letters = atob(text.trim());
  const bytes = new Uint8Array(letters.length);
  for (let at = 0; at < letters.length; at += 1) bytes[at] = letters.charCodeAt(at);
  return bytes;
}

// Files that were packed by gzip, behind a line of JSON with the name and size of each.
async function unpacked(text) {
  const stream = new Blob([bytesOfBase64(text)]).stream().pipeThrough(new DecompressionStream("gzip"));
  const bytes = new Uint8Array(await new Response(stream).arrayBuffer());
  const end = bytes.indexOf(10);
  const files = {};
  let at = end + 1;
  for (const { name, size } of JSON.parse(new TextDecoder().decode(bytes.subarray(0, end)))) {
    files[name] = bytes.subarray(at, at + size);
    at += size;
  }
  return files;
}
