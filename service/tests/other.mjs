// The program in another version, which answers otherwise: its replies have `commits` for `commit`.
const write = process.stdout.write.bind(process.stdout);
process.stdout.write = (piece, done) => write(Buffer.from(piece).toString().replace('"commit"', '"commits"'), done);
await import('../../web/cli.mjs');
