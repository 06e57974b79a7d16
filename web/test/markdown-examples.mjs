// Texts for the rules of CommonMark, and of GitHub's check lists, tables and strikethrough.

/** Each is read, and goes around. */
export const texts = [
  // tabs, precedence, rules
  '\tfoo\tbaz', '  \tfoo', '- foo\n\n\tbar', '>\t\tfoo', '-\t\tfoo', ' - foo\n   - bar\n\t - baz', '- `one\n- two`',
  '***\n---\n___',
  '+++', '--\n**\n__', ' ***', '    ***', 'Foo\n    ***', '_ _ _ _ _', '- - -', '- foo\n***\n- bar', 'Foo\n***\nbar',
  'Foo\n---\nbar',
  '* Foo\n* * *\n* Bar', '- Foo\n- * * *',
  // headings
  '# foo\n## foo\n###### foo', '####### foo', '#5 bolt\n\n#hashtag', '\\## foo', '# foo *bar* \\*baz\\*', '## foo ##',
  '### foo ### b',
  '# foo#', '### foo \\###\n## foo #\\##', '## \n#\n### ###', 'Foo *bar*\n====', 'Foo *bar\nbaz*\n====',
  'Foo\n    ---', 'Foo\\\n----',
  '`Foo\n----\n`', '> foo\nbar\n===', '- Foo\n---', 'Foo\nBar\n---', '\\> foo\n------', 'a\\\nb | c\n===',
  'a\\\nb\\\nc\n---',
  // code blocks
  '    a simple\n      indented', '- foo\n\n      bar', '1.  foo\n\n    - bar',
  '    chunk1\n\n    chunk2\n \n    chunk3', '```\n<\n >\n```',
  '~~~\n<\n~~~', '````\naaa\n```\n``````', '```\n\n  \n```', '```\n```', '```ruby startline=3\ndef foo(x)\nend\n```',
  '> ```\n> aaa\n\nbbb',
  '```\naaa', '- ```\n  a\n\n  b\n\n  ```\n- c', '~~~  aa ``` ~~~\naaa\n~~~',
  // references, paragraphs, HTML
  '[foo]: /url "title"\n\n[foo]', '[Foo bar]:\n<my url>\n\'title\'\n\n[Foo bar]', '[foo]: <>\n\n[foo]', '[foo]',
  'aaa\n  bbb', 'aaa     \nbbb     ',
  '<b>*x*</b>', '<div>\n*a*\n</div>', '<!-- no -->', '<?php ?>',
  // quotes and items
  '> # Foo\n> bar\n> baz', '> bar\nbaz\n> foo', '> - foo\n- bar', '>', '>\n> foo\n>  ', '> foo\n\n> bar',
  '> bar\n>\nbaz', '> > > foo\nbar',
  '>     code\n\n>    not code', 'A\n\n1.  B\n\n        code\n\n    > quote', '- one\n\n two', '123456789. ok',
  '1234567890. not ok', '0. ok',
  '-1. no', '- foo\n-\n- bar', '*', 'foo\n*', '- a\n - b\n  - c\n   - d\n    - e',
  '- a\n\n  > b\n  ```\n  c\n  ```\n- d', '- - foo', '1. - 2. foo',
  '- # Foo\n- Bar\n  ---\n  baz', '- foo\n- bar\n+ baz', '1. foo\n2. bar\n3) baz', 'The\n14. no', '- a\n- b\n\n- c',
  '* a\n*\n\n* c',
  // code, emphasis, links, breaks
  '`` foo ` bar ``', '` `` `', '`  ``  `', '` a`', '`foo\\`bar`', '*foo`*`', '`foo', '*foo bar*', 'a * foo bar*',
  'a*"foo"*', '*\u00a0a\u00a0*',
  'foo*bar*', '_foo_bar_baz_', 'foo-_(bar)_', '*(*foo*)*', '**foo bar **', 'a**"foo"**', '__foo, __bar__, baz__',
  '*foo**bar**baz*',
  '***foo** bar*', '*foo **bar***', 'foo***bar***baz', '**foo*bar*baz**', '****foo****', '*foo [bar*](/u)',
  '**a<http://f.c?q=**>', '*a `*`*',
  '[link](/uri "title")', '[link]()', '[link](<a b>)', '[a](<b)c>)', '[link](foo\\)\\:)', '[link](/u "a \\"&quot;")',
  '[l [f [b]]](/u)', '[![m](m.j)](u)',
  '![foo *bar*](t.png "x")', '!\\[foo]', '\\![foo](u)', '<http://foo.bar.baz>', '<foo@bar.example>', '<javascript:a>',
  'foo  \nbaz', 'foo\\\nbaz',
  '*foo  \nbar*', '`c  \nd`', 'foo\\', '### foo\\', '\\*not\\* \\<br/> \\`',
  '&nbsp; &amp; &copy; &#35; &#X22; &#0; &x;', 'a&#32;\\\n&#32;b', '&#9;foo',
  // GitHub
  '- [ ] a\n- [x] b\n  - [X] c\n- d', '1. [ ] a', '- [ ]\n- [x]\n  - b', '- \\[ ] a', '| a | b |\n|:-|-:|\n| c | d |',
  '|a|\n|-|', '| a |\n| - |\n| `\\|` |',
  'a | b\n- | -\n1 | 2\n\nx', '|  |  |\n|--|--|\n| c | d |', '> | a |\n> |---|\n> | b |', '~~a~~ ~b~ **~~c~~**',
  '- a\n\n  | b | c |\n  |---|---|\n  | d | e |',
];
