// Calls a store over the pipe of `ets_script --external`. Any number of calls may be under way: requests are written, and
// replies read as they come, so that neither side waits for the other.
import { spawn } from 'node:child_process'

// Terms: a BigInt or a safe integer, a boolean (an atom), a string or Buffer (a binary), an array (a list), and these.
export class Atom { constructor(name) { this.name = name } }
export class Tuple { constructor(...elements) { this.elements = elements } }
export class Pid { constructor(number) { this.number = number } }
export class Table { constructor(number) { this.number = number } }

export const Status = { BADARG: 1, SYSTEM_LIMIT: 2, NO_PROCESS: 3, NO_MEMORY: 4, SYNTAX: 5, UNTOLD: 7 }

// A request that was refused: compare `status`; the text is for people. After UNTOLD the call was made, but its reply was lost.
export class Refused extends Error {
  constructor(status, reason) { super(`status ${status}: ${reason}`); this.status = status }
}

const NODE = Buffer.from('\x77\x0dnonode@nohost', 'latin1')

const u32 = (number) => { const bytes = Buffer.alloc(4); bytes.writeUInt32BE(number); return bytes }
const join = (...parts) => Buffer.concat(parts.map((it) => (typeof it === 'number' ? Buffer.from([it]) : it)))
function encodeInteger(number) {
  const digits = []
  for (let rest = number < 0n ? -number : number; rest > 0n; rest >>= 8n) digits.push(Number(rest & 255n))
  if (digits.length > 16) throw new RangeError('an integer of over 128 bits')
  return Buffer.from([110, digits.length, number < 0n ? 1 : 0, ...digits])
}

// Returns the bytes of a term in Erlang's External Term Format.
function encode(term) {
  if (typeof term === 'bigint') return encodeInteger(term)
  if (Number.isSafeInteger(term)) return encodeInteger(BigInt(term))
  if (typeof term === 'boolean') return encode(new Atom(String(term)))
  if (typeof term === 'string') return encode(Buffer.from(term))
  if (Buffer.isBuffer(term)) return join(109, u32(term.length), term)
  if (term instanceof Atom && /^[ -~]{0,255}$/.test(term.name)) return join(119, term.name.length, Buffer.from(term.name))
  if (term instanceof Pid) return join(88, NODE, u32(term.number), Buffer.alloc(8))
  if (term instanceof Table) return join(90, 0, 1, NODE, u32(0), u32(term.number))
  if (term instanceof Tuple) return join(105, u32(term.elements.length), Buffer.concat(term.elements.map(encode)))
  if (Array.isArray(term)) return join(108, u32(term.length), Buffer.concat(term.map(encode)), 106)
  throw new TypeError('not a term of the store')
}

// Returns the term whose bytes these are. Bytes that end too early are an error.
function decode(bytes) {
  let at = 1
  const take = (count) => {
    if (count > bytes.length - at) throw new RangeError('not a whole term')
    return bytes.subarray(at, (at += count))
  }
  const number = (count) => take(count).readUIntBE(0, count)
  const row = (count) => Array.from({ length: count }, term)
  function term() {
    switch (number(1)) {
      case 97: return number(1)
      case 98: return take(4).readInt32BE()
      case 110: {
        const [digits, sign] = take(2)
        const it = take(digits).reduceRight((sum, digit) => (sum << 8n) | BigInt(digit), 0n) * (sign ? -1n : 1n)
        return Number.isSafeInteger(Number(it)) ? Number(it) : it
      }
      case 119: { const name = take(number(1)).toString(); return name === 'true' || (name !== 'false' && new Atom(name)) }
      case 109: return take(number(4))
      case 104: return Object.assign(new Tuple(), { elements: row(number(1)) })
      case 105: return Object.assign(new Tuple(), { elements: row(number(4)) })
      case 106: return []
      case 107: return [...take(number(2))]
      case 108: { const list = row(number(4)); take(1); return list }
      case 88: return new Pid(take(27).readUInt32BE(15))
      case 90: return new Table(take(25).readUInt32BE(21))
      default: throw new RangeError('unknown tag')
    }
  }
  return term()
}

export class Store {
  #waiting = []
  #program; #length; #fault

  // Starts the program ets_script at a path with options, such as '--max-objects', '5000000'. If it does not start, each request fails.
  constructor(path, ...options) {
    this.#program = spawn(path, ['--external', ...options], { stdio: ['pipe', 'pipe', 'inherit'] })
    this.#program.on('error', (fault) => this.#end(fault)).stdin.on('error', () => this.#end())
    this.#program.stdout.on('readable', () => this.#read()).on('close', () => this.#end())
  }

  // Starts the process with this number, which is used once; ends one; makes a call, such as call(0, 'lookup', t, key).
  spawn(pid) { return this.#ask(0, pid) }
  exit(pid) { return this.#ask(1, pid) }
  async call(pid, name, ...terms) { return this.#ask(2, pid, join(131, encode(new Tuple(new Atom(name), terms)))) }
  close() { this.#program.stdin.end() }

  #ask(kind, pid, call = Buffer.alloc(0)) {
    if (this.#fault) return Promise.reject(this.#fault)
    this.#program.stdin.write(join(u32(5 + call.length), kind, u32(pid), call))
    return new Promise((resolve, reject) => this.#waiting.push({ resolve, reject }))
  }

  // Takes each whole packet that has come. The rest stays in the stream.
  #read() {
    const output = this.#program.stdout
    for (let part; (part = output.read(this.#length ?? 4))?.length === (this.#length ?? 4); ) {
      if (this.#length !== undefined) this.#answer(part)
      this.#length = this.#length === undefined ? part.readUInt32BE() : undefined
    }
  }

  #answer(body) {
    const { resolve, reject } = this.#waiting.shift() ?? { resolve() {}, reject() {} }
    if (body[0] !== 0) return reject(new Refused(body[0], body.toString('utf8', 1)))
    try { resolve(decode(body.subarray(1))) } catch (fault) { reject(fault) }
  }

  #end(fault = new Error('the store has ended')) {
    this.#fault ??= fault
    for (const { reject } of this.#waiting.splice(0)) reject(this.#fault)
  }
}
