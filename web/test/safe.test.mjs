// Addresses and styles that may reach a page, and those that may not.
import assert from 'node:assert/strict';
import test from 'node:test';
import { isSafeAddress, safeStyle } from '../safe.js';

test('addresses that are safe', () => {
  for (const address of [
    '', '#', '#a:b', '?a:b', '/a:b', './a:b', '//example.org/a:b', 'a', 'a/b:c', 'a?b&#c', 'a&#b',
    'https://example.org/?a=javascript:b&#99',
    'http://a', 'HTTPS://a', 'h\tttps://a', ' https://a', 'mailto:a@b', 'tel:+1-2', 'https:a',
  ]) assert.ok(isSafeAddress(address), JSON.stringify(address));
});

test('addresses that are not', () => {
  for (const address of [
    'javascript:x', 'jAvAsCrIpT:x', '\t javascript:x', 'java\r\nscript:x', 'javascript\t:x', '\u0000javascript:x',
    '\ufeffjavascript:x',
    '\u2028javascript:x', 'java\u200bscript:x', 'data:,x', 'vbscript:x', 'file:x', 'ftp://a', 'a:b', 'x-https:a',
    'https+a:b', ':a',
    '&#106;avascript:x', '&#x6A;avascript:x', 'javascript&colon;x', 'java&newline;script:x', '\u212aa:x',
    'javascript\uff1a:x',
  ]) assert.ok(!isSafeAddress(address), JSON.stringify(address));
});

test('schemes of one\'s own', () => {
  assert.ok(isSafeAddress('FTP:a', ['ftp']) && isSafeAddress('ftp:a', ['FTP']) && !isSafeAddress('https:a', ['ftp']));
  assert.ok(isSafeAddress('a', []) && !isSafeAddress('https:a', []));
});

test('declarations that stay', () => {
  for (const style of [
    '', 'color: red', 'COLOR:RED', 'color:#fff; background-color:rgb(1, 2, 3)', 'font-family:"A B", \'C\', serif',
    'line-height:1.5',
    'font-size:calc(1em + (2px * 3))', 'text-decoration:underline !important', 'letter-spacing:-1px',
    'color:color-mix(in srgb, red 10%, blue)',
  ]) assert.equal(safeStyle(style), style);
  assert.equal(safeStyle(' color : red ;; font-weight:bold; '), 'color : red; font-weight:bold');
});

test('declarations that go', () => {
  for (const declaration of [
    'position:fixed', 'inset:0', 'top:0', 'background:red', 'background-image:none', 'color', ':red', 'color:',
    'color: ', '--x:1', '{}', 'a{color:red',
    'color:url(x)', 'color:URL (x)', 'color:u\\72l(x)', 'color:expression(x)', 'color:exp/**/ression(x)',
    'color:red/*', 'color:@x', 'color:"',
    'font-family:"a', 'font-family:a"b', 'color:rgb(1', 'color:rgb)1(', 'color:image-set("x" 1x)',
    'color:var(--x)', 'color:attr(x)', 'color:env(x)',
    'color:-webkit-image-set(x)', 'color:red}', 'color:<!--', 'color:javascript', 'color:a:b', 'color:red\u0000',
    'co lor:red', 'color\u0000:red', '\\63olor:red',
    'color:[x]', 'color:\u0131mage(x)',
  ]) {
    assert.equal(safeStyle(declaration), '', declaration);
    assert.equal(safeStyle(`color:red;${declaration};font-size:1px`), 'color:red; font-size:1px', declaration);
  }
});

test('what is in a string or a comment becomes no declaration that is not listed', () => {
  assert.equal(safeStyle('font-family:"a;position:fixed;b"'), '');
  assert.equal(safeStyle('color:red/*;position:fixed;*/'), '');
});

test('properties of one\'s own', () => {
  assert.equal(safeStyle('Margin:1px;color:red', ['margin']), 'Margin:1px');
  assert.equal(safeStyle('background:url(x)', ['background']), '');
});

test('long ones take time in proportion', () => {
  const long = 'a'.repeat(1_000_000);
  assert.equal(safeStyle(`color:${long}`), `color:${long}`);
  for (const value of ['(', '"\'', 'a(', ' ', 'color:', ' (', '/']) {
    assert.equal(safeStyle(`color:${value.repeat(100_000)}:`), '');
    assert.ok(!isSafeAddress(`${value.repeat(100_000)}javascript:x`) || value === '/');
  }
  assert.equal(safeStyle(long), '');
  assert.equal(safeStyle(';'.repeat(500_000)), '');
  assert.ok(isSafeAddress(long) && !isSafeAddress(`${'&'.repeat(500_000)}:`));
});

test('arguments of another type', () => {
  for (const value of [null, undefined, 1, {}, ['https:a']]) {
    assert.throws(() => isSafeAddress(value), TypeError);
    assert.throws(() => safeStyle(value), TypeError);
  }
});
