// Preloaded by a test: breaks something that the tool needs for every text.
'use strict';

Buffer.concat = () => { throw new Error('broken for a test'); };
