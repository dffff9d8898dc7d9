// Tests the client: node --test examples/node/yoyoash.test.mjs, with the program that YOYOASH_PROGRAM names.
import assert from 'node:assert'
import { mkdtempSync, rmSync, writeFileSync } from 'node:fs'
import { tmpdir } from 'node:os'
import { join } from 'node:path'
import { test } from 'node:test'
import { Atom, Pid, Refused, Status, Store, Table, Tuple } from './yoyoash.mjs'

const t = new Atom('t')

// Runs a test on a store that has process 0 and a table.
function onStore(name, body) {
  test(name, { timeout: 30000 }, async () => {
    const store = new Store(process.env.YOYOASH_PROGRAM)
    assert.deepStrictEqual(await store.spawn(0), new Pid(0))
    assert.deepStrictEqual(await store.call(0, 'new', t, [new Atom('named_table')]), t)
    try { await body(store) } finally { store.close() }
  })
}

onStore('terms of all types are read back', async (store) => {
  const long = new Tuple(...Array.from({ length: 300 }, (_, at) => at))
  const terms = [0, 255, 256, -1, 2 ** 31, Number.MAX_SAFE_INTEGER, 2n ** 63n, -(2n ** 127n), new Atom(''), new Atom('truer'), true, false, Buffer.from('},{exit'),
    new Pid(7), new Table(3), new Tuple(), [], [1, 255], [1, Buffer.from('a')], long]
  for (const term of terms) {
    await store.call(0, 'insert', t, new Tuple(1, term))
    assert.deepStrictEqual(await store.call(0, 'lookup_element', t, 1, 2), term)
  }
  assert.strictEqual(await store.call(0, 'insert_new', t, new Tuple(1)), false)
  for (const term of [1.5, null, new Atom('a'.repeat(256)), 2n ** 128n]) await assert.rejects(store.call(0, 'insert', t, new Tuple(1, term)))
})

onStore('64 calls under way write and read 12.8 MB each way', async (store) => {
  const text = 'x'.repeat(200000)
  const replies = await Promise.all(Array.from({ length: 64 }, () => store.call(0, 'lookup_element', t, 1, 2, text)))
  for (const reply of replies) assert.strictEqual(reply.length, text.length)
})

onStore('a refusal has its status', async (store) => {
  await assert.rejects(store.call(9, 'lookup', t, 1), (it) => it instanceof Refused && it.status === Status.NO_PROCESS)
  await assert.rejects(store.call(0, 'lookup', t), (it) => it.status === Status.BADARG)
})

test('calls after the end, or without a program, fail', { timeout: 30000 }, async () => {
  const ended = new Store(process.env.YOYOASH_PROGRAM)
  await ended.spawn(0)
  ended.close()
  await assert.rejects(ended.call(0, 'lookup', t, 1))
  await assert.rejects(ended.call(0, 'lookup', t, 1))
  const absent = new Store('/nowhere/ets_script')
  for (let each = 0; each < 2; each++) await assert.rejects(absent.spawn(0), { code: 'ENOENT', path: '/nowhere/ets_script' })
})

onStore('a list of 200,000 elements', async (store) => {
  const list = Array.from({ length: 200000 }, (_, at) => at)
  assert.deepStrictEqual(await store.call(0, 'lookup_element', t, 1, 2, list), list)
})

test('a reply that ends early, or is not a term, fails', { timeout: 30000 }, async () => {
  const folder = mkdtempSync(join(tmpdir(), 'yoyoash-'))
  const program = join(folder, 'program')
  writeFileSync(program, '#!/bin/sh\ncat "$0.reply"\n', { mode: 0o755 })
  const packet = (...body) => [0, 0, 0, body.length, ...body]
  const replies = [[], [0, 0, 0], [0, 0, 0, 5, 0, 131], packet(0, 131, 119), packet(0, 131, 119, 2, 97), packet(0, 131, 1),
    packet(0, 131, 108, 255, 255, 255, 255, 97, 1), packet(0, 131, 109, 255, 255, 255, 255), packet(1, 97), packet()]
  for (const reply of replies) {
    writeFileSync(`${program}.reply`, Buffer.from(reply))
    await assert.rejects(new Store(program).spawn(0))
  }
  rmSync(folder, { recursive: true })
})
