"""Makes a picture of a browser small: 256 colours, each other one by the nearest of these, and one byte a pixel. The
browser itself reads the picture, since that takes Python minutes."""
import base64
import struct
import zlib

READ = """
const [data, done] = arguments, image = new Image();
image.onload = () => {
  const canvas = Object.assign(document.createElement("canvas"), { width: image.width, height: image.height }), pen = canvas.getContext("2d");
  pen.drawImage(image, 0, 0);
  const bytes = pen.getImageData(0, 0, image.width, image.height).data, counts = new Map(), colours = new Uint32Array(image.width * image.height);
  for (let n = 0; n < colours.length; n++) {
    const it = (bytes[4 * n] << 16) | (bytes[4 * n + 1] << 8) | bytes[4 * n + 2];
    colours[n] = it;
    counts.set(it, (counts.get(it) || 0) + 1);
  }
  // (the first of each sixteenth of red, green and blue, so that a small part of a colour of its own keeps it; then the others)
  const ranked = [...counts].sort((a, b) => b[1] - a[1]).map(([it]) => it), kinds = new Set();
  const firsts = ranked.filter((it) => { const kind = it & 0xf0f0f0, isNew = !kinds.has(kind); kinds.add(kind); return isNew; });
  const palette = [...new Set([...firsts, ...ranked])].slice(0, 256), numbers = new Map(palette.map((it, n) => [it, n]));
  const far = (a, b) => [16, 8, 0].reduce((sum, by) => sum + (((a >> by) & 255) - ((b >> by) & 255)) ** 2, 0);
  for (const it of counts.keys()) {
    if (numbers.has(it)) continue;
    let best = 0;
    for (let n = 1; n < palette.length; n++) if (far(palette[n], it) < far(palette[best], it)) best = n;
    numbers.set(it, best);
  }
  let text = "";
  for (let n = 0; n < colours.length; n++) text += String.fromCharCode(numbers.get(colours[n]));
  done({ width: image.width, height: image.height, palette, pixels: btoa(text) });
};
image.src = "data:image/png;base64," + data;
"""


def part(kind, data):
    return struct.pack(">I", len(data)) + kind + data + struct.pack(">I", zlib.crc32(kind + data))


def made_small(browser, data):
    """The bytes of a PNG anew. The browser shows an empty page behind it."""
    browser.go("about:blank")
    it = browser.run_later(READ, base64.b64encode(data).decode())
    width, height, pixels = it["width"], it["height"], base64.b64decode(it["pixels"])
    rows = b"".join(b"\0" + pixels[n * width:(n + 1) * width] for n in range(height))
    palette = b"".join(struct.pack(">I", colour)[1:] for colour in it["palette"])
    head = struct.pack(">IIBBBBB", width, height, 8, 3, 0, 0, 0)
    return b"\x89PNG\r\n\x1a\n" + part(b"IHDR", head) + part(b"PLTE", palette) + part(b"IDAT", zlib.compress(rows, 9)) + part(b"IEND", b"")
