// Starts the page: the document that the browser keeps, or a new one, and all that is around it.
import { clipboard } from './clipboard.js';
import { drop } from './drop.js';
import { files } from './files.js';
import { bringInSight, keepInSight } from './in-sight.js';
import { inspector } from './inspector.js';
import { moduleHere } from './module.js';
import { layOutNear } from './near-caret.js';
import { notices } from './notices.js';
import { Page } from './page.js';
import { storage } from './storage.js';
import { tableToolbar } from './table-toolbar.js';
import { showTitle } from './titles.js';
import { toolbar } from './toolbar.js';

const part = (/** @type {string} */ name) => /** @type {HTMLElement} */ (document.getElementById(name));

const kept = storage();
const page = await Page.open(part('page'), { source: moduleHere(), log: kept.log });
notices(page, part('notices'));
const opened = files(page, part('bar'), kept);
toolbar(page, part('bar'));
tableToolbar(page, part('bar'));
keepInSight(page);
layOutNear(page);
clipboard(page);
drop(page, opened);
inspector(page, part('core'));
kept.keep(page);
showTitle(page);
page.focus();
bringInSight(page);
window.page = page; // for a look from the console
