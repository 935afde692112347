// Modules whose memory may not grow far.

// A number of seven bits a byte, and where it ends.
function leb(bytes, at) {
  let value = 0, shift = 0, end = at;
  do value |= (bytes[end] & 0x7f) << shift, shift += 7; while (bytes[end++] & 0x80);
  return [value, end];
}

function asLeb(value) {
  const all = [];
  do all.push(value & 0x7f | (value > 0x7f ? 0x80 : 0)), value >>= 7; while (value);
  return all;
}

// The least pages of the module, and the module with a limit: section 5 tells its memory.
export function limitable(bytes) {
  for (let at = 8; at < bytes.length;) {
    const [size, from] = leb(bytes, at + 1);
    if (bytes[at] === 5) {
      const [least] = leb(bytes, from + 2), [front, rest] = [bytes.subarray(0, at), bytes.subarray(from + size)];
      const limited = most => [1, 1, ...asLeb(least), ...asLeb(most)];
      return [least, most => Buffer.concat([front, Buffer.from([5, limited(most).length, ...limited(most)]), rest])];
    }
    at = from + size;
  }
  throw new Error('the module has no memory');
}
