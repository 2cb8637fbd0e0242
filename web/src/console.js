/** What Node's console shows of an owner. */
import { Owner, isOwner } from './runtime.js';

function inspected(depth, settings, inspect) {
  let name = 'Object';
  try {
    name = String(this.constructor.name);
  } catch {
    // What has no name that can be read is an object.
  }
  if (typeof inspect !== 'function' || !isOwner(this) || typeof depth === 'number' && depth < 0) return `${name} {}`;
  return `${name} ${inspect(this.toJSON(), settings)}`;
}
/** The methods of owners have it from now on. */
export function showInConsole() {
  Object.defineProperty(Owner.prototype, Symbol.for('nodejs.util.inspect.custom'), { value: inspected, writable: true, configurable: true });
}
