// Addresses as people type them.
import { isSafeAddress } from '../safe.js';

/**
 * The address that is meant: `example.org` and `me@example.org` get their schemes.
 * @param {string} typed
 * @returns {string | null} null for what a page doesn't follow
 */
export function addressMeant(typed) {
  const address = typed.trim();
  if (!isSafeAddress(address)) return null;
  if (/^[^\s/@:]+@[^\s/@:]+\.[^\s/@:]+$/.test(address)) return `mailto:${address}`;
  return /^[^\s/:#?.]+(\.[^\s/:#?.]+)+(:\d+)?([/?#]|$)/.test(address) ? `https://${address}` : address;
}
