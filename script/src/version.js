// The version of the command, which is the crate's.
'use strict';

const VERSION = '0.1.0';

module.exports = { VERSION };
