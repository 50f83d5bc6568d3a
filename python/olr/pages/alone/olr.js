// The program `olr` as a WebAssembly module. It reads the files of a map once, and then takes records and gives their
// lines, as bytes. It serves Node and browsers alike.
const encoder = new TextEncoder()

// Files as one array of bytes: of each its path, a zero byte, its size in eight bytes, and its bytes.
function packed(files) {
  const parts = Object.entries(files).map(([path, bytes]) => [encoder.encode(path + '\0'), bytes])
  const all = new Uint8Array(parts.reduce((sum, [path, bytes]) => sum + path.length + 8 + bytes.length, 0))
  let at = 0
  for (const [path, bytes] of parts) {
    all.set(path, at)
    new DataView(all.buffer).setBigUint64(at + path.length, BigInt(bytes.length), true)
    all.set(bytes, at + path.length + 8)
    at += path.length + 8 + bytes.length
  }
  return all
}

// The host refused the memory that the module asked for.
class NoMemory extends Error {}

// A call ended in a trap, so what the memory holds isn't known: this instance answers no more.
class Stopped extends Error {}

const ANSWER = 24
const KEPT = 16
const FIRST_ROOM = 1 << 20
const ERROR_ROOM = 1 << 16

class Olr {
  #exports
  #kept
  #isStopped = false

  constructor(instance) {
    this.#exports = instance.exports
    this.#kept = this.#take(KEPT)
    this.#bytes(this.#kept, KEPT).fill(0)
  }

  // An instance of a compiled module, with no map.
  static async of(module) {
    return new Olr(await WebAssembly.instantiate(module, {}))
  }

  // Reads a map, whose files have the paths `map/nodes.csv`, `map/lines.csv` and perhaps `map/bans.csv`, in place of the
  // one before: the status, and the bytes of its errors. A map that is refused leaves none.
  open(files) {
    return this.#during((take) => {
      const rooms = this.#rooms(take)
      this.#run('olr_page_open', ...this.#given(take, packed(files)), this.#kept, ...rooms)
      const { status, errors } = this.#told(rooms)
      return { status, errors }
    })
  }

  // The lines that `olr answer` writes for records on the map that was read, as bytes: with the file of a confidence, of which these are the
  // bytes, or without one where there are none. Throws `NoMemory`.
  answer(records, confidence = new Uint8Array()) {
    return this.#during((take) => {
      const input = [...this.#given(take, records), ...this.#given(take, confidence)]
      const rooms = this.#rooms(take)
      for (let size = FIRST_ROOM; ; size *= 8) {
        const lines = this.#answered(input, size, rooms)
        if (lines !== null) return lines
      }
    })
  }

  // Gives the memory of the map back.
  close() {
    this.#run('olr_page_close', this.#kept)
  }

  // The same with room for fewer bytes than this; null where there are as many.
  #answered(input, size, rooms) {
    return this.#during((take) => {
      const room = take(size)
      this.#run('olr_page_ask', ...input, this.#kept, room, BigInt(size), rooms[2])
      const { status, output } = this.#told(rooms)
      if (output === size) return null
      if (status !== 0) throw new NoMemory('olr: NoMemory')
      return this.#bytes(room, output).slice()
    })
  }

  // Rooms for errors and for how a call ended.
  #rooms(take) {
    return [take(ERROR_ROOM), BigInt(ERROR_ROOM), take(ANSWER)]
  }

  // How a call ended: the status, how many bytes the output has, and the bytes of the errors.
  #told([errorRoom, , answer]) {
    const view = new DataView(this.#exports.memory.buffer, Number(answer), ANSWER)
    const [output, errors] = [8, 16].map((at) => Number(view.getBigUint64(at, true)))
    return { status: view.getUint8(0), output, errors: this.#bytes(errorRoom, errors).slice() }
  }

  // Bytes in the memory of the module: where, and how many.
  #given(take, bytes) {
    const at = take(bytes.length)
    this.#bytes(at, bytes.length).set(bytes)
    return [at, BigInt(bytes.length)]
  }

  #bytes(at, length) {
    return new Uint8Array(this.#exports.memory.buffer, Number(at), length)
  }

  #take(length) {
    const at = this.#exports.olr_page_take(BigInt(length))
    if (at === 0n) throw new NoMemory('olr: NoMemory')
    return at
  }

  // What work gives that takes memory, which is given back behind it.
  #during(work) {
    if (this.#isStopped) throw new Stopped('olr: this instance was stopped by a trap')
    const taken = []
    try {
      return work((length) => taken[taken.push(this.#take(length)) - 1])
    } finally {
      if (!this.#isStopped) taken.forEach((at) => this.#exports.olr_page_give(at))
    }
  }

  #run(name, ...given) {
    try {
      this.#exports[name](...given)
    } catch (error) {
      this.#isStopped = true
      throw new Stopped(`olr: ${error.message}`, { cause: error })
    }
  }
}
