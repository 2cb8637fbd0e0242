// In a browser: posts what the random calls and the lines at /lines gave, as `digest` and `replies`, or an `error`.
import * as wollemigo from '../index.js';
import { digest } from './digest/digest.js';
import { replies } from './tool.js';

async function answers() {
  await wollemigo.load();
  const calls = Number(new URL(location.href).searchParams.get('calls'));
  const lines = await (await fetch('/lines')).text();
  return { digest: digest(wollemigo, calls), replies: replies(wollemigo, lines) };
}

const answer = await answers().catch((error) => ({ error: `${error}\n${error.stack}` }));
await fetch('/answer', { method: 'POST', body: JSON.stringify(answer) });
