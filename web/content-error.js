// What the modules around the core throw: for content that comes from a clipboard, a file or a reply, and isn't what it should be.

/** @typedef {import('./content-error.js').ContentErrorCode} ContentErrorCode */

/** Content that can't be taken. Nothing was changed. */
export class ContentError extends Error {
  /**
   * @param {ContentErrorCode} code
   * @param {string} message
   * @param {unknown} [cause]
   */
  constructor(code, message, cause) {
    super(message, { cause });
    this.name = 'ContentError';
    this.code = code;
  }
}
