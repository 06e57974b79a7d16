// Starts the page of a document at the service: `?document=NAME` says which.
import { pastes } from './clipboard.js';
import { files } from './files.js';
import { keepInSight } from './in-sight.js';
import { notices } from './notices.js';
import { SharedPage } from './shared-page.js';
import { tableToolbar } from './table-toolbar.js';
import { toolbar } from './toolbar.js';

const part = (/** @type {string} */ name) => /** @type {HTMLElement} */ (document.getElementById(name));
const name = new URLSearchParams(location.search).get('document') ?? 'plan';

document.title = `${name} - Vaultsatin`;
const page = new SharedPage(part('page'), `/documents/${encodeURIComponent(name)}`);
notices(page, part('notices'));
await page.open();
files(page, part('bar'), undefined, ['open', 'json', 'html', 'md']);
toolbar(page, part('bar'));
tableToolbar(page, part('bar'));
keepInSight(page);
pastes(page);
page.focus();
window.page = page; // for a look from the console
