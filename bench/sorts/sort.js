// The lines of standard input in the order of node's Intl.Collator, of the root and at its strength `variant`.
const names = require('fs').readFileSync(0, 'utf8').split('\n');
names.pop();
names.sort(new Intl.Collator('und').compare);
process.stdout.write(names.join('\n') + '\n');
