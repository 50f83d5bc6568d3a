"use strict";
// Lists that are packed by gzip, or in a zip of one file, as a browser can unpack them; others are left as they are, and refused by `readList`.
//
//   readList(await unpackedList(bytes), reading)
//
// It throws a `ToolError` for what is damaged, or becomes more than MOST_UNPACKED bytes.

const MOST_UNPACKED = 128 << 20;
const WORKBOOK = "xl/workbook.xml";
const [ZIP_END, ZIP_ENTRY] = [0x06054b50, 0x02014b50];
// Bytes at the end of a zip, and the most that a comment behind them has.
const [ZIP_END_BYTES, MOST_COMMENT] = [22, 65_535];

const unpackable = (why) => new ToolError(`${LIST_NAME} ${why}`);
const damagedPacking = (why) => unpackable(`can't be unpacked: ${why}: copy the file again`);

async function unpackedList(bytes) {
  const isGzip = startsWith(bytes, PACKED.gzip);
  if (!isGzip && !startsWith(bytes, PACKED.zip)) return bytes;
  const found = isGzip ? await inflated(bytes, "gzip") : await fileOfZip(bytes);
  if (Object.values(PACKED).some((first) => startsWith(found, first))) throw unpackable("is packed twice: unpack it first");
  return found;
}

async function inflated(bytes, format) {
  const reader = new Blob([bytes]).stream().pipeThrough(new DecompressionStream(format)).getReader();
  const pieces = [];
  let size = 0;
  try {
    for (let next = await reader.read(); !next.done; next = await reader.read()) {
      pieces.push(next.value);
      size += next.value.length;
      if (size > MOST_UNPACKED) break;
    }
  } catch (error) {
    throw damagedPacking(error.message);
  }
  if (size <= MOST_UNPACKED) return joined(pieces);
  await reader.cancel();
  throw unpackable(`becomes more than ${MOST_UNPACKED >> 20} MiB: unpack it first, and match the file by olr-tools match`);
}

async function fileOfZip(bytes) {
  const view = new DataView(bytes.buffer, bytes.byteOffset, bytes.byteLength);
  let files = [];
  try {
    files = filesOfZip(bytes, view);
  } catch (error) {
    if (!(error instanceof RangeError)) throw error;
    throw damagedPacking("it ends before its end");
  }
  if (files.some(({ name }) => name === WORKBOOK)) throw unpackable("is a workbook: name the file itself");
  if (files.length !== 1) {
    const names = files.length ? shownTexts(files.map(({ name }) => name)) : "none";
    throw unpackable(`has ${files.length} files, and not one: unpack it, and name one: ${names}`);
  }
  const [{ flags, method, first, size }] = files;
  if (flags & 1) throw unpackable("is encrypted: unpack it first");
  if (method !== 0 && method !== 8) throw unpackable("is a zip with another method than deflate: unpack it first, by unzip");
  if (first + 30 > bytes.length) throw damagedPacking("it ends before its end");
  const begin = first + 30 + view.getUint16(first + 26, true) + view.getUint16(first + 28, true);
  const packed = bytes.subarray(begin, begin + size);
  return method === 0 ? packed : inflated(packed, "deflate-raw");
}

// The files of a zip, by the list at its end, without folders and what macOS adds.
function filesOfZip(bytes, view) {
  let end = bytes.length - ZIP_END_BYTES;
  const least = Math.max(0, end - MOST_COMMENT);
  while (end >= least && view.getUint32(end, true) !== ZIP_END) end -= 1;
  if (end < least) throw damagedPacking("File is not a zip file");
  const files = [];
  let at = view.getUint32(end + 16, true);
  for (let count = view.getUint16(end + 10, true); count > 0; count -= 1) {
    if (view.getUint32(at, true) !== ZIP_ENTRY) throw damagedPacking("Bad magic number for central directory");
    const [flags, method] = [view.getUint16(at + 8, true), view.getUint16(at + 10, true)];
    const lengths = [28, 30, 32].map((place) => view.getUint16(at + place, true));
    const name = lenientUtf8.decode(bytes.subarray(at + 46, at + 46 + lengths[0]));
    const isFile = !name.endsWith("/") && !name.startsWith("__MACOSX/");
    if (isFile) files.push({ name, flags, method, size: view.getUint32(at + 20, true), first: view.getUint32(at + 42, true) });
    at += 46 + lengths[0] + lengths[1] + lengths[2];
  }
  return files;
}
