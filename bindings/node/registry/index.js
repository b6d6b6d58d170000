// SPDX-License-Identifier: MIT OR Apache-2.0
'use strict';

/** The path of IANA's registry, and its day. */
exports.path = require('node:path').join(__dirname, 'registry.txt');
exports.fileDate = '2025-05-15';
