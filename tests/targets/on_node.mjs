// on_node.mjs MODULE.wasm CALLS: the replay as WebAssembly: what it takes comes from the file, what it says goes to standard output.
import fs from 'fs';

const record = fs.readFileSync(process.argv[3]);
let at = 0;
const memory = () => new Uint8Array(instance.exports.memory.buffer);
const env = {
    replay_read(to, most) {
        const taken = Math.min(most, record.length - at);
        memory().set(record.subarray(at, at + taken), to);
        at += taken;
        return taken;
    },
    replay_say(text) {
        const from = memory().subarray(text);
        process.stdout.write(Buffer.from(from.subarray(0, from.indexOf(0))));
    },
};
const module = new WebAssembly.Module(fs.readFileSync(process.argv[2]));
const instance = new WebAssembly.Instance(module, { env });
process.exitCode = instance.exports.replay();
