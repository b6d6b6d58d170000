// SPDX-License-Identifier: MIT OR Apache-2.0
import bcp47 from './index.js';

export const { Available, Refusal, Refused, RefusedRegistry, RefusedTag, Registry, Tag, version } = bcp47;
export default bcp47;
