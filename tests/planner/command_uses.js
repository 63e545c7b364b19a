// A program that carries out uses of the command, handed to it as JSON, and prints what each gave: starting Node takes longer than a use.

const [uses, { write }] = [JSON.parse(process.argv[2]), process.stdout];
// The command watches its output, anew in each use.
for (const stream of [process.stdout, process.stderr]) stream.setMaxListeners(0);
const found = [];
for (const [at, words] of uses.entries()) {
  const said = { stdout: '', stderr: '' };
  for (const name of Object.keys(said)) process[name].write = (text) => (said[name] += text) !== '';
  process.argv = [...process.argv.slice(0, 2), ...words];
  process.exitCode = 0;
  await import(`../../planner/command/main.js?use=${at}`);
  found.push({ status: process.exitCode, ...said });
}
process.exitCode = 0;
write.call(process.stdout, JSON.stringify(found));
