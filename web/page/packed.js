// Bytes in letters, and zipped bytes: how this file carries the examples and the programs, and a link its text.
'use strict';

/** Returns the bytes that a text in base64 stands for. It throws where the text is none. */
function bytesOfLetters(letters) {
  const found = atob(letters);
  const bytes = new Uint8Array(found.length);
  for (let at = 0; at < found.length; at += 1) bytes[at] = found.charCodeAt(at);
  return bytes;
}

/** Returns bytes as a text in base64. */
function lettersOfBytes(bytes) {
  const pieces = [];
  // A call takes no more than some ten thousand arguments.
  for (let at = 0; at < bytes.length; at += 8192) {
    pieces.push(String.fromCharCode(...bytes.subarray(at, at + 8192)));
  }
  return btoa(pieces.join(''));
}

/** Sends bytes through a stream, and returns what comes. It throws behind `most` bytes, as a few may stand for many. */
async function through(stream, bytes, most = Infinity) {
  const reader = new Blob([bytes]).stream().pipeThrough(stream).getReader();
  const pieces = [];
  let length = 0;
  for (;;) {
    const { done, value } = await reader.read();
    if (done) break;
    pieces.push(value);
    length += value.length;
    if (length > most) {
      reader.cancel();
      throw new RangeError(`more than ${most} bytes`);
    }
  }
  return new Uint8Array(await new Blob(pieces).arrayBuffer());
}

/** Returns bytes zipped by gzip. */
function zipped(bytes) {
  return through(new CompressionStream('gzip'), bytes);
}

/** Returns what bytes were before they were zipped. It throws where they weren't, or beyond `most` of them. */
function unzipped(bytes, most) {
  return through(new DecompressionStream('gzip'), bytes, most);
}
