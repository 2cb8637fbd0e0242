// Lines that the types refuse, since the package does.
import { Atlas, TextureCache, load, pack } from '../index.js';

const page = { width: 64, height: 64 };
const sheet = pack([page])!;
const box = new Atlas(5, 5).allocate(5, 5)!;
new TextureCache({ page });
new TextureCache({ page: sheet }); // refused
new TextureCache({ page: box }); // refused
new TextureCache({ page, largestPage: sheet.places[0]! }); // refused
new Atlas(5, 5, { alignment: box }); // refused
new Atlas(5, 5, { alignment: 4 }); // refused
new Atlas(5, 5, { smallSizeTreshold: 4 }); // refused
new Atlas('5', 5); // refused
load(5); // refused
