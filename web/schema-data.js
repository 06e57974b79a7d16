// What a line may be. web/build/schema.mjs makes this file of examples/lines.schema.json: change nothing here.

/** @type {import('./schema-types.js').Table} */
export const table = {
  forms: ['update', 'flush', 'dispatch', 'rule_line', 'listener_line', 'load', 'show', 'clear'], layers: ['hub', 'ask'],
  definitions: {
    moment: { least: 0, most: 9007199254740991 }, tags: { list: 'string' },
    update: { has: { update: 'steps', defer: 'boolean', at: 'moment', tags: 'tags' }, needs: ['update'] },
    flush: { has: { flush: 'true', at: 'moment', tags: 'tags' }, needs: ['flush'] },
    dispatch: { has: { dispatch: 'string', payload: 'payload', at: 'moment', tags: 'tags' }, needs: ['dispatch'] },
    rule_line: { has: { rule: 'rule', at: 'moment' }, needs: ['rule'] },
    listener_line: { has: { listener: 'listener', at: 'moment' }, needs: ['listener'] },
    load: { has: { load: 'any', at: 'moment', tags: 'tags' }, needs: ['load'] },
    show: {
      has: { show: { words: ['state', 'view', 'selection', 'history', 'slice'] }, at: 'moment' }, needs: ['show'],
    },
    clear: { has: { clear: { words: ['history'] }, at: 'moment' }, needs: ['clear'] },
    hub: {
      has: {
        hub: [
          { words: ['attach'] }, { row: [{ words: ['deliver', 'html', 'detach'] }, { least: 0, most: 4294967295 }] },
        ],
      },
      needs: ['hub'],
    },
    ask: { has: { ask: { words: ['outline', 'events'] } }, needs: ['ask'] },
    node: [{ least: 0, most: 4294967295 }, 'string'], offset: { least: 0, most: 18446744073709550000 },
    point: { row: ['node', 'offset', { words: ['text', 'element'] }] },
    selection: [
      'null', { has: { keys: { list: 'node' } }, needs: ['keys'] },
      { has: { anchor: 'node', focus: 'node', table: 'node' }, needs: ['anchor', 'focus', 'table'] },
      { has: { anchor: 'point', focus: 'point', format: { least: 0, most: 65535 } }, needs: ['anchor', 'focus'] },
    ],
    payload: ['null', 'string', { row: [{ least: 1, most: 50 }, { least: 1, most: 50 }, 'boolean'] }],
    steps: { list: 'step' },
    new_element: {
      has: {
        direction: ['null', { words: ['ltr', 'rtl'] }],
        format: ['null', { words: ['', 'left', 'center', 'right', 'justify', 'start', 'end'] }],
        indent: ['null', { least: 0, most: 65535 }], textFormat: ['null', { least: 0, most: 65535 }],
        textStyle: ['null', 'string'],
      },
    },
    set_element: {
      has: {
        direction: ['null', { words: ['ltr', 'rtl'] }],
        format: { words: ['', 'left', 'center', 'right', 'justify', 'start', 'end'] },
        indent: { least: 0, most: 65535 }, textFormat: { least: 0, most: 65535 }, textStyle: 'string',
      },
    },
    new_heading: { has: { tag: ['null', { words: ['h1', 'h2', 'h3', 'h4', 'h5', 'h6'] }] }, like: 'new_element' },
    set_heading: {
      has: {
        direction: ['null', { words: ['ltr', 'rtl'] }],
        format: { words: ['', 'left', 'center', 'right', 'justify', 'start', 'end'] },
        indent: { least: 0, most: 65535 }, textFormat: { least: 0, most: 65535 }, textStyle: 'string',
      },
    },
    new_list: {
      has: {
        listType: ['null', { words: ['bullet', 'number', 'check'] }], start: ['null', { least: 0, most: 1000000 }],
      },
      like: 'new_element',
    },
    set_list: { has: { start: { least: 0, most: 1000000 } }, like: 'set_element' },
    new_listitem: { has: { checked: ['null', 'boolean'], value: 'null' }, like: 'new_element' },
    set_listitem: { has: { checked: ['null', 'boolean'] }, like: 'set_element' },
    new_link: {
      has: { rel: ['null', 'string'], target: ['null', 'string'], title: ['null', 'string'], url: ['null', 'string'] },
      like: 'new_element',
    },
    set_link: {
      has: { rel: ['null', 'string'], target: ['null', 'string'], title: ['null', 'string'], url: 'string' },
      like: 'set_element',
    },
    new_tablecell: {
      has: {
        headerState: ['null', { least: 0, most: 3 }], colSpan: ['null', { least: 1, most: 1000 }],
        rowSpan: ['null', { least: 1, most: 1000 }], backgroundColor: ['null', 'string'],
      },
      like: 'new_element',
    },
    set_tablecell: {
      has: {
        headerState: { least: 0, most: 3 }, colSpan: { least: 1, most: 1000 }, rowSpan: { least: 1, most: 1000 },
        backgroundColor: ['null', 'string'],
      },
      like: 'set_element',
    },
    new_text: {
      has: {
        text: ['null', 'string'], detail: ['null', { least: 0, most: 3 }],
        mode: ['null', { words: ['normal', 'token', 'segmented'] }],
      },
      like: 'new_tab',
    },
    set_text: {
      has: { text: 'string', detail: { least: 0, most: 3 }, mode: { words: ['normal', 'token', 'segmented'] } },
      like: 'set_tab',
    },
    new_tab: { has: { format: ['null', { least: 0, most: 65535 }], style: ['null', 'string'] } },
    set_tab: { has: { format: { least: 0, most: 65535 }, style: 'string' } }, new_bare: { has: {} },
    set_bare: { has: {} }, new_embed: { has: { src: ['null', 'string'] } }, set_embed: { has: { src: 'string' } },
    type: {
      words: [
        'root', 'paragraph', 'heading', 'quote', 'list', 'listitem', 'link', 'table', 'tablerow', 'tablecell', 'text',
        'tab', 'linebreak', 'horizontalrule', 'embed',
      ],
    },
    fields_to_set: {
      has: {
        direction: ['null', { words: ['ltr', 'rtl'] }],
        format: [{ words: ['', 'left', 'center', 'right', 'justify', 'start', 'end'] }, { least: 0, most: 65535 }],
        indent: { least: 0, most: 65535 }, textFormat: { least: 0, most: 65535 }, textStyle: 'string',
        start: { least: 0, most: 1000000 }, checked: ['null', 'boolean'], rel: ['null', 'string'],
        target: ['null', 'string'], title: ['null', 'string'], url: 'string', headerState: { least: 0, most: 3 },
        colSpan: { least: 1, most: 1000 }, rowSpan: { least: 1, most: 1000 }, backgroundColor: ['null', 'string'],
        text: 'string', style: 'string', detail: { least: 0, most: 3 },
        mode: { words: ['normal', 'token', 'segmented'] }, src: 'string',
        tag: { words: ['h1', 'h2', 'h3', 'h4', 'h5', 'h6'] }, listType: { words: ['bullet', 'number', 'check'] },
        value: { least: 0, most: 1200000 },
      },
      isOpen: true,
    },
    built_in: {
      words: [
        'undo', 'redo', 'insert-text', 'remove-text', 'insert-paragraph', 'insert-line-break', 'insert-tab',
        'delete-character', 'delete-word', 'format-text', 'select-all', 'cut', 'paste', 'make-list', 'remove-list',
        'indent', 'outdent', 'toggle-checked', 'insert-table', 'insert-row', 'insert-column', 'delete-row',
        'delete-column', 'merge-cells', 'unmerge',
      ],
    },
    step: [
      { has: { append: 'string' }, needs: ['append'] },
      {
        has: { new: { words: ['paragraph', 'quote', 'table', 'tablerow'] }, fields: 'new_element', as: 'string' },
        needs: ['new'],
      },
      { has: { new: { words: ['heading'] }, fields: 'new_heading', as: 'string' }, needs: ['new'] },
      { has: { new: { words: ['list'] }, fields: 'new_list', as: 'string' }, needs: ['new'] },
      { has: { new: { words: ['listitem'] }, fields: 'new_listitem', as: 'string' }, needs: ['new'] },
      { has: { new: { words: ['link'] }, fields: 'new_link', as: 'string' }, needs: ['new'] },
      { has: { new: { words: ['tablecell'] }, fields: 'new_tablecell', as: 'string' }, needs: ['new'] },
      { has: { new: { words: ['text'] }, fields: 'new_text', as: 'string' }, needs: ['new'] },
      { has: { new: { words: ['tab'] }, fields: 'new_tab', as: 'string' }, needs: ['new'] },
      { has: { new: { words: ['linebreak', 'horizontalrule'] }, fields: 'new_bare', as: 'string' }, needs: ['new'] },
      { has: { new: { words: ['embed'] }, fields: 'new_embed', as: 'string' }, needs: ['new'] },
      { has: { put: 'node', into: 'node', at: 'offset' }, needs: ['put', 'into'] },
      { has: { remove: 'node' }, needs: ['remove'] },
      { has: { replace: 'node', with: 'node', keep: 'boolean' }, needs: ['replace', 'with'] },
      { has: { set: 'node', fields: 'fields_to_set' }, needs: ['set', 'fields'] },
      { has: { mark: 'node' }, needs: ['mark'] },
      { has: { split: 'node', at: { list: 'offset' }, as: 'string' }, needs: ['split', 'at'] },
      { has: { join: 'node', with: 'node' }, needs: ['join', 'with'] },
      { has: { wrap: 'node', in: 'node' }, needs: ['wrap', 'in'] }, { has: { unwrap: 'node' }, needs: ['unwrap'] },
      { has: { children: 'node', into: 'node' }, needs: ['children', 'into'] },
      { has: { select: 'selection' }, needs: ['select'] },
      { has: { do: 'built_in', payload: 'payload' }, needs: ['do'] },
      { has: { dispatch: 'string', payload: 'payload' }, needs: ['dispatch'] },
      { has: { later: 'steps' }, needs: ['later'] },
    ],
    listener: {
      has: {
        on: 'string', priority: { least: 0, most: 4 },
        when: { has: { payload: 'string', selection: 'string', block: 'string' } }, steps: 'steps', handled: 'boolean',
      },
      needs: ['on', 'priority', 'steps', 'handled'],
    },
    condition: [
      { has: { text: 'string' }, needs: ['text'] }, { has: { contains: 'string' }, needs: ['contains'] },
      { has: { shorter: 'offset' }, needs: ['shorter'] }, { has: { format: 'offset' }, needs: ['format'] },
      { has: { parent: 'type' }, needs: ['parent'] }, { has: { previous: ['null', 'type'] }, needs: ['previous'] },
      { has: { next: ['null', 'type'] }, needs: ['next'] }, { has: { childless: 'true' }, needs: ['childless'] },
    ],
    new_node: [
      {
        has: { type: { words: ['root', 'paragraph', 'quote', 'table', 'tablerow'] }, fields: 'new_element' },
        needs: ['type'],
      },
      { has: { type: { words: ['heading'] }, fields: 'new_heading' }, needs: ['type'] },
      { has: { type: { words: ['list'] }, fields: 'new_list' }, needs: ['type'] },
      { has: { type: { words: ['listitem'] }, fields: 'new_listitem' }, needs: ['type'] },
      { has: { type: { words: ['link'] }, fields: 'new_link' }, needs: ['type'] },
      { has: { type: { words: ['tablecell'] }, fields: 'new_tablecell' }, needs: ['type'] },
      { has: { type: { words: ['text'] }, fields: 'new_text' }, needs: ['type'] },
      { has: { type: { words: ['tab'] }, fields: 'new_tab' }, needs: ['type'] },
      { has: { type: { words: ['linebreak', 'horizontalrule'] }, fields: 'new_bare' }, needs: ['type'] },
      { has: { type: { words: ['embed'] }, fields: 'new_embed' }, needs: ['type'] },
    ],
    edit: [
      { has: { remove: 'true' }, needs: ['remove'] }, { has: { replace: 'new_node' }, needs: ['replace'] },
      { has: { wrap: 'new_node' }, needs: ['wrap'] }, { has: { unwrap: 'true' }, needs: ['unwrap'] },
      { has: { before: 'new_node' }, needs: ['before'] }, { has: { after: 'new_node' }, needs: ['after'] },
      { has: { child: 'new_node' }, needs: ['child'] }, { has: { mergenext: 'true' }, needs: ['mergenext'] },
    ],
    rule: [
      {
        has: {
          on: { words: ['root', 'paragraph', 'quote', 'table', 'tablerow'] }, if: { list: 'condition' },
          do: { list: ['edit', { has: { set: 'set_element' }, needs: ['set'] }] },
        },
        needs: ['on', 'if', 'do'],
      },
      {
        has: {
          on: { words: ['heading'] }, if: { list: 'condition' },
          do: { list: ['edit', { has: { set: 'set_heading' }, needs: ['set'] }] },
        },
        needs: ['on', 'if', 'do'],
      },
      {
        has: {
          on: { words: ['list'] }, if: { list: 'condition' },
          do: { list: ['edit', { has: { set: 'set_list' }, needs: ['set'] }] },
        },
        needs: ['on', 'if', 'do'],
      },
      {
        has: {
          on: { words: ['listitem'] }, if: { list: 'condition' },
          do: { list: ['edit', { has: { set: 'set_listitem' }, needs: ['set'] }] },
        },
        needs: ['on', 'if', 'do'],
      },
      {
        has: {
          on: { words: ['link'] }, if: { list: 'condition' },
          do: { list: ['edit', { has: { set: 'set_link' }, needs: ['set'] }] },
        },
        needs: ['on', 'if', 'do'],
      },
      {
        has: {
          on: { words: ['tablecell'] }, if: { list: 'condition' },
          do: { list: ['edit', { has: { set: 'set_tablecell' }, needs: ['set'] }] },
        },
        needs: ['on', 'if', 'do'],
      },
      {
        has: {
          on: { words: ['text'] }, if: { list: 'condition' },
          do: {
            list: [
              'edit', { has: { set: 'set_text' }, needs: ['set'] }, { has: { add: { longest: 256 } }, needs: ['add'] },
            ],
          },
        },
        needs: ['on', 'if', 'do'],
      },
      {
        has: {
          on: { words: ['tab'] }, if: { list: 'condition' },
          do: { list: ['edit', { has: { set: 'set_tab' }, needs: ['set'] }] },
        },
        needs: ['on', 'if', 'do'],
      },
      {
        has: {
          on: { words: ['linebreak', 'horizontalrule'] }, if: { list: 'condition' },
          do: { list: ['edit', { has: { set: 'set_bare' }, needs: ['set'] }] },
        },
        needs: ['on', 'if', 'do'],
      },
      {
        has: {
          on: { words: ['embed'] }, if: { list: 'condition' },
          do: { list: ['edit', { has: { set: 'set_embed' }, needs: ['set'] }] },
        },
        needs: ['on', 'if', 'do'],
      },
    ],
  },
};
