// A client of spmat in JavaScript: node packaging/clients/client.mjs PORT, beside `spmat serve --port PORT ..`
import net from 'node:net'

const socket = net.connect(Number(process.argv[2]), '127.0.0.1')
socket.setNoDelay(true)
let bytes = Buffer.alloc(0)
let wake = () => {}
socket.on('data', piece => { bytes = Buffer.concat([bytes, piece]); wake() })
socket.on('end', () => { bytes = null; wake() })

async function take(length) {                      // the next `length` bytes of the replies
  while (bytes !== null && bytes.length < length()) await new Promise(resolve => { wake = resolve })
  if (bytes === null) throw new Error('the server has ended the session')
  const taken = bytes.subarray(0, length())
  bytes = bytes.subarray(taken.length)
  return taken.toString('latin1')
}

const line = async () => (await take(() => bytes.indexOf(10) + 1 || Infinity)).trimEnd()

async function ask(command, body) {                // a command, and the words of its reply
  socket.write(body === undefined ? `${command}\n` : `${command} ${Buffer.byteLength(body)}\n${body}`)
  const reply = await line()
  if (!reply.startsWith('ok ')) throw new Error(`${command}: ${reply}`)
  return reply.split(' ').slice(1)
}

await ask('matrix A', '%%MatrixMarket matrix coordinate integer general\n2 2 2\n1 1 41\n2 1 9\n')
await ask('asm inc unary', 'mov64 r0, r1\nadd64 r0, 1\nexit\n')
console.log('price', (await ask('apply B inc A'))[2])
const [, jobs, spent] = await ask('run')
for (let job = 0; job < Number(jobs); job++) console.log('job', await line())
const [, length] = await ask('show B')
console.log(`spent ${spent}\n${await take(() => Number(length))}`.trimEnd())
await ask('quit')
socket.end()
