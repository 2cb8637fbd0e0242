import { DONE, EMPTY, STATUSES as CALLED } from './interface.js';

export { DONE, FRAME_FULL, HELD, NO_ROOM, NOT_HELD, NOT_LIVE } from './interface.js';

/** What each status of the library is called, by its number. A handle holds nothing where its owner was disposed of. */
export const STATUSES = CALLED.map((name, status) => (status === EMPTY ? 'DISPOSED' : name));

/** What the codes say that more than one class has; the others are beside what throws them. */
const MESSAGES = {
  BAD_CALL: "an empty size, options that aren't valid, a growth that shrinks a side, or a bad limit",
  NOT_LIVE: "an id isn't live, or is listed twice",
  SLOTS: 'more slots would be used than the limit allows',
  MEMORY: 'memory was refused',
  NO_PAGE: 'there is no such page',
  DISPOSED: 'the object was disposed of',
  TRAPPED: 'the WebAssembly module has trapped, and is used no more',
  NOT_LOADED: "the module isn't there yet: await load() first",
};

/** Whether an error is one of the package; a proxy of one isn't. */
export let isOurs;

export class WollemigoError extends Error {
  #own = true;

  static {
    isOurs = (value) => typeof value === 'object' && value !== null && #own in value;
  }

  constructor(code, message, given) {
    const more = Object(given);
    super(message, 'cause' in more ? { cause: more.cause } : undefined);
    this.code = code;
    if ('sprite' in more) this.sprite = more.sprite;
    if ('index' in more) this.index = more.index;
  }
}
Object.defineProperty(WollemigoError.prototype, 'name', { value: 'WollemigoError', configurable: true, writable: true });

/** Adds what the codes of a class say. */
export function say(messages) {
  Object.assign(MESSAGES, messages);
}

export function failure(code, more) {
  return new WollemigoError(code, MESSAGES[code] ?? code, more);
}

/** Throws where a status isn't DONE. Of a bad call or bad options, `why` says in words which condition doesn't hold. */
export function require(status, why) {
  if (status === DONE) return;
  const code = STATUSES[status];
  const words = code === 'BAD_CALL' || code === 'BAD_ATLAS' ? why?.() : undefined;
  throw words === undefined ? failure(code) : new WollemigoError(code, words);
}

/** Refuses arguments beyond those that a call takes. */
export function atMost(many, given) {
  if (given > many) throw new WollemigoError('SURPLUS', `the call takes ${many} arguments, and was given ${given}`);
}

/** Has the methods of a class, and those that are called on the class itself, refuse arguments beyond theirs, but for these: they do so
 * by themselves, since they are called often, or are called by JavaScript. The pages that web/play/build makes leave this out. */
export function close(made, ...others) {
  if (import.meta.cut) return;
  for (const of of [made, made.prototype]) {
    for (const [name, { value, ...more }] of Object.entries(Object.getOwnPropertyDescriptors(of))) {
      if (typeof value !== 'function' || ['constructor', 'toJSON', ...others].includes(name)) continue;
      const { [name]: closed } = { [name](...given) {
        atMost(value.length, given.length);
        return value.apply(this, given);
      } };
      Object.defineProperty(closed, 'length', { value: value.length });
      Object.defineProperty(of, name, { value: closed, ...more });
    }
  }
}

/** The message of what was thrown, which may be anything. */
export function told(cause) {
  try {
    return cause instanceof Error && typeof cause.message === 'string' ? cause.message : 'no reason';
  } catch {
    return 'no reason';
  }
}
