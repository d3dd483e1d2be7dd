// Preloaded by a test: whatever is written on a full pipe is an error at once, as it is where another program has set the pipe so.
'use strict';

[process.stdout, process.stderr].forEach((stream) => stream.on('error', () => {}));
