/** Of Node's own modules what the tests use, in a browser: another realm, and what a file beside the tests has. */

export function runInNewContext(text) {
  const frame = document.body.appendChild(document.createElement('iframe'));
  return frame.contentWindow.eval(text);
}

export function readFileSync(place) {
  const asked = new XMLHttpRequest();
  asked.open('GET', place, false);
  asked.overrideMimeType('text/plain; charset=x-user-defined');
  asked.send();
  return Uint8Array.from(asked.responseText, (letter) => letter.charCodeAt(0) & 255);
}
