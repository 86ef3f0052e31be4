//! Walks by several threads.
//!
//! What is to be done stands on a stack that all threads share: directories to be entered, and
//! entries to be visited. Work that was put there and isn't done yet is counted; the walk ends when
//! there is none, or when a visitor says so. A thread that has nothing to do takes half of the
//! entries that another took and hasn't begun with, or else sleeps.

use crate::decide::{Answers, Asked, Begun, Guide, Place, Plan};
use crate::entry::{identity, DirEntry, Follows, Identity};
use crate::library::Verdict;
use crate::listing::{Listed, Listing};
use crate::names::told;
use crate::walk::{check_loop, made, Manner};
use crate::Error;
use std::path::{Path, PathBuf};
use std::sync::atomic::{AtomicBool, Ordering};
use std::sync::{Arc, Condvar, Mutex, MutexGuard, OnceLock, PoisonError};
use std::{iter, panic, thread};

/// What a visitor says of the rest of the walk.
#[derive(Clone, Copy, Debug, Eq, PartialEq)]
pub enum WalkState {
    /// It goes on.
    Continue,
    /// It goes on, but not into this directory. Of any other entry it says nothing.
    Skip,
    /// It ends. Other threads may show entries until they see that.
    Quit,
}

impl WalkState {
    fn is_quit(self) -> bool {
        self == WalkState::Quit
    }
}

/// Makes visitors, of which each thread has one.
pub trait ParallelVisitorBuilder<'s> {
    /// Makes a visitor.
    ///
    /// One is made for errors of the roots, and then one for each thread before any of them begins.
    fn build(&mut self) -> Box<dyn ParallelVisitor + 's>;
}

impl<'s, P: ParallelVisitorBuilder<'s>> ParallelVisitorBuilder<'s> for &mut P {
    fn build(&mut self) -> Box<dyn ParallelVisitor + 's> {
        (**self).build()
    }
}

/// Is shown what one thread meets. It is dropped before [`WalkParallel::visit`] returns.
pub trait ParallelVisitor: Send {
    /// Is shown an entry, or an error in the place of one.
    fn visit(&mut self, entry: Result<DirEntry, Error>) -> WalkState;
}

type VisitFn<'s> = Box<dyn FnMut(Result<DirEntry, Error>) -> WalkState + Send + 's>;

struct FnBuilder<F>(F);

struct FnVisitor<'s>(VisitFn<'s>);

impl<'s, F: FnMut() -> VisitFn<'s>> ParallelVisitorBuilder<'s> for FnBuilder<F> {
    fn build(&mut self) -> Box<dyn ParallelVisitor + 's> {
        Box::new(FnVisitor((self.0)()))
    }
}

impl ParallelVisitor for FnVisitor<'_> {
    fn visit(&mut self, entry: Result<DirEntry, Error>) -> WalkState {
        (self.0)(entry)
    }
}

/// A walk by several threads: the entries that the rules keep, in any order, but a directory before
/// what is in it.
pub struct WalkParallel {
    paths: Vec<PathBuf>,
    plan: Arc<Plan>,
    manner: Manner,
    threads: usize,
}

/// A root.
struct Root {
    path: PathBuf,
    /// Its device, where another one isn't entered.
    device: Option<u64>,
    /// What decides above it and in it, as the first thread read it.
    answers: OnceLock<Arc<Answers>>,
}

/// A directory that is entered once, and told to each thread that works below it.
struct Folder {
    root: Arc<Root>,
    parent: Option<Arc<Folder>>,
    path: PathBuf,
    identity: Option<Identity>,
    /// What is in it that decides, as the thread read it that entered it.
    answers: OnceLock<Arc<Answers>>,
}

impl Folder {
    /// The directories from this one to its root.
    fn up(self: &Arc<Folder>) -> impl Iterator<Item = &Arc<Folder>> {
        iter::successors(Some(self), |folder| folder.parent.as_ref())
    }

    /// Its name.
    fn name(&self) -> &Path {
        Path::new(self.path.file_name().unwrap_or(self.path.as_os_str()))
    }
}

/// What is to be done.
enum Work {
    /// A root to be begun, if it is a directory.
    Root(Arc<Root>, DirEntry),
    /// A directory to be entered.
    Folder(Arc<Folder>, DirEntry),
    /// Entries to be visited, from the last one on.
    Entries(Vec<DirEntry>),
    /// Those that the thread took.
    Taken,
}

impl Work {
    /// Entries to be visited in this order.
    fn entries(mut entries: Vec<DirEntry>) -> Work {
        entries.reverse();
        Work::Entries(entries)
    }
}

/// So many entries are taken at once.
const TOGETHER: usize = 16;

/// So much of one directory is put on the stack at once.
const AT_ONCE: usize = 64;

#[derive(Default)]
struct State {
    stack: Vec<Work>,
    /// How much was taken from the stack, or is there, and isn't done.
    open: usize,
    /// How many threads sleep.
    idle: usize,
}

#[derive(Default)]
struct Shared {
    state: Mutex<State>,
    changed: Condvar,
    is_over: AtomicBool,
    /// The entries that each thread took, and hasn't begun with, from the last one on. They are put
    /// here by who has the state, so a thread that finds none sleeps until there are some.
    taken: Vec<Mutex<Vec<DirEntry>>>,
}

impl Shared {
    fn of(threads: usize) -> Shared {
        Shared {
            taken: (0..threads).map(|_| Mutex::default()).collect(),
            ..Shared::default()
        }
    }

    fn state(&self) -> MutexGuard<'_, State> {
        self.state.lock().unwrap_or_else(PoisonError::into_inner)
    }

    fn taken(&self, thread: usize) -> MutexGuard<'_, Vec<DirEntry>> {
        self.taken[thread]
            .lock()
            .unwrap_or_else(PoisonError::into_inner)
    }

    /// Half of what another thread took, at least one entry, from the last one on.
    fn half(&self, thread: usize) -> Option<Vec<DirEntry>> {
        let others = (0..self.taken.len()).filter(|&it| it != thread);
        others.map(|it| self.taken(it)).find_map(|mut taken| {
            let half = taken.len() - taken.len() / 2;
            (half > 0).then(|| taken.drain(..half).collect())
        })
    }

    /// Puts the entries of work where other threads may take some of them.
    fn laid_out(&self, thread: usize, work: Work, state: &State) -> Work {
        match work {
            Work::Entries(entries) => {
                if entries.len() > 1 && state.idle > 0 && state.stack.is_empty() {
                    self.changed.notify_one();
                }
                *self.taken(thread) = entries;
                Work::Taken
            }
            work => work,
        }
    }

    fn put(&self, work: impl ExactSizeIterator<Item = Work>) {
        let count = work.len();
        if count == 0 {
            return;
        }
        let mut state = self.state();
        state.open += count;
        state.stack.extend(work);
        drop(state);
        match count {
            1 => self.changed.notify_one(),
            _ => self.changed.notify_all(),
        }
    }

    /// The next work of a thread, for which it sleeps; `None` at the end.
    fn next(&self, thread: usize) -> Option<(Work, Open<'_>)> {
        let mut state = self.state();
        loop {
            if self.is_over() {
                return None;
            }
            let work = state.stack.pop().or_else(|| {
                let entries = self.half(thread)?;
                state.open += 1;
                Some(Work::Entries(entries))
            });
            if let Some(work) = work {
                return Some((self.laid_out(thread, work, &state), Open(self)));
            }
            if state.open == 0 {
                return None;
            }
            state.idle += 1;
            state = self
                .changed
                .wait(state)
                .unwrap_or_else(PoisonError::into_inner);
            state.idle -= 1;
        }
    }

    fn is_over(&self) -> bool {
        self.is_over.load(Ordering::Acquire)
    }

    /// Ends the walk: no work is taken any more.
    fn end(&self) {
        let state = self.state();
        self.is_over.store(true, Ordering::Release);
        drop(state);
        self.changed.notify_all();
    }
}

/// Work that was taken. It is done when this is dropped, by a panic too.
struct Open<'w>(&'w Shared);

impl Drop for Open<'_> {
    fn drop(&mut self) {
        let mut state = self.0.state();
        state.open -= 1;
        if state.open == 0 {
            drop(state);
            self.0.changed.notify_all();
        }
    }
}

/// Ends the walk where its thread panics.
struct EndsByPanic<'w>(&'w Shared);

impl Drop for EndsByPanic<'_> {
    fn drop(&mut self) {
        if thread::panicking() {
            self.0.end();
        }
    }
}

impl WalkParallel {
    pub(crate) fn new(
        paths: Vec<PathBuf>,
        plan: Arc<Plan>,
        manner: Manner,
        threads: usize,
    ) -> WalkParallel {
        WalkParallel {
            paths,
            plan,
            manner,
            threads,
        }
    }

    /// Walks, and shows each thread's entries to a function that is made for it.
    pub fn run<'s, F>(self, mkf: F)
    where
        F: FnMut() -> Box<dyn FnMut(Result<DirEntry, Error>) -> WalkState + Send + 's>,
    {
        self.visit(&mut FnBuilder(mkf))
    }

    /// Walks, and shows each thread's entries to a visitor that is made for it.
    ///
    /// A panic of a visitor ends the walk, and goes on in the caller after all threads have ended.
    pub fn visit(self, builder: &mut dyn ParallelVisitorBuilder<'_>) {
        let mut roots = Vec::new();
        let mut visitor = builder.build();
        for path in self.paths.iter().cloned() {
            match self.begun(path) {
                Ok(work) => roots.push(work),
                Err(error) => {
                    if visitor.visit(Err(error)).is_quit() {
                        return;
                    }
                }
            }
        }
        drop(visitor);
        if roots.is_empty() {
            return;
        }
        let shared = Shared::of(self.count());
        // The first root is taken first.
        roots.reverse();
        shared.put(roots.into_iter());
        let visitors: Vec<_> = (0..self.count()).map(|_| builder.build()).collect();
        thread::scope(|scope| {
            let (walk, shared) = (&self, &shared);
            // (a thread that can't be had is a panic here, and those before it are to end)
            let _ends = EndsByPanic(shared);
            let run = |(thread, visitor)| {
                scope.spawn(move || Worker::new(walk, shared, thread, visitor).run())
            };
            let handles: Vec<_> = visitors.into_iter().enumerate().map(run).collect();
            let ended = handles.into_iter().map(thread::ScopedJoinHandle::join);
            let panics: Vec<_> = ended.filter_map(Result::err).collect();
            if let Some(first) = panics.into_iter().next() {
                panic::resume_unwind(first);
            }
        });
    }

    fn count(&self) -> usize {
        match self.threads {
            0 => thread::available_parallelism().map_or(1, |count| count.get().min(12)),
            count => count,
        }
    }

    /// The work of a root. A link there is followed.
    fn begun(&self, path: PathBuf) -> Result<Work, Error> {
        if path == Path::new("-") {
            return Ok(Work::Entries(vec![DirEntry::stdin()]));
        }
        let device = match self.manner.same_file_system {
            true => Some(
                identity(&path)
                    .map_err(|error| Error::Io(error).with_path(&path))?
                    .0,
            ),
            false => None,
        };
        let entry = DirEntry::at(&path, 0, Follows::Hidden);
        let entry = entry.map_err(|error| Error::of_walk(error, &path, 0))?;
        let answers = OnceLock::new();
        let root = Arc::new(Root {
            path,
            device,
            answers,
        });
        Ok(Work::Root(root, entry))
    }
}

/// A directory that a thread has entered.
struct Entered {
    folder: Arc<Folder>,
    place: Place,
}

/// A thread of a walk. The directories on the way to the one that it works in are entered.
struct Worker<'w, 's> {
    walk: &'w WalkParallel,
    shared: &'w Shared,
    /// Its number.
    thread: usize,
    visitor: Box<dyn ParallelVisitor + 's>,
    guide: Option<Guide>,
    root: Option<(Arc<Root>, Place)>,
    /// The directories on the way, the root as the first.
    way: Vec<Entered>,
}

impl<'w, 's> Worker<'w, 's> {
    fn new(
        walk: &'w WalkParallel,
        shared: &'w Shared,
        thread: usize,
        visitor: Box<dyn ParallelVisitor + 's>,
    ) -> Worker<'w, 's> {
        Worker {
            walk,
            shared,
            thread,
            visitor,
            guide: None,
            root: None,
            way: Vec::new(),
        }
    }

    fn run(mut self) {
        let _ends = EndsByPanic(self.shared);
        while let Some((work, _open)) = self.shared.next(self.thread) {
            if self.work(work).is_quit() {
                self.shared.end();
            }
        }
    }

    fn guide(&mut self) -> &mut Guide {
        let (plan, shares) = (&self.walk.plan, self.walk.count() > 1);
        self.guide.get_or_insert_with(|| Guide::new(plan, shares))
    }

    fn work(&mut self, work: Work) -> WalkState {
        match work {
            Work::Taken | Work::Entries(_) => loop {
                let entry = self.shared.taken(self.thread).pop();
                let Some(entry) = entry else {
                    return WalkState::Continue;
                };
                if self.shared.is_over() || self.show(entry).is_quit() {
                    return WalkState::Quit;
                }
            },
            Work::Root(_, entry) if !entry.is_dir() => self.show(entry),
            Work::Root(root, entry) => {
                let Begun { place, above, own } = self.begin(&root);
                if let Some(error) = above {
                    if self.visitor.visit(Err(error)).is_quit() {
                        return WalkState::Quit;
                    }
                }
                let folder = self.folder(&root, None, &entry);
                self.enter(&folder, entry, Some((place, own)))
            }
            Work::Folder(folder, entry) => self.enter(&folder, entry, None),
        }
    }

    /// Shows an entry, if it is deep enough.
    fn show(&mut self, entry: DirEntry) -> WalkState {
        match entry.depth() >= self.walk.manner.min_depth {
            true => self.visitor.visit(Ok(entry)),
            false => WalkState::Continue,
        }
    }

    /// Begins a root.
    fn begin(&mut self, root: &Arc<Root>) -> Begun {
        self.leave_root();
        let begun = self.guide().root(&root.path);
        if let Some(answers) = begun.place.answers() {
            root.answers.get_or_init(|| answers);
        }
        self.root = Some((root.clone(), begun.place.clone()));
        begun
    }

    fn leave_root(&mut self) {
        self.leave_below(0);
        if let Some((_, place)) = self.root.take() {
            self.guide().leave(&place);
        }
    }

    /// Leaves the directories on the way from the one with this number on; but the root stays.
    fn leave_below(&mut self, count: usize) {
        while self.way.len() > count {
            match self.way.pop() {
                Some(Entered { place, .. }) if !self.way.is_empty() => self.guide().leave(&place),
                _ => {}
            }
        }
    }

    /// A directory. What can't be had of it is an error where it is listed.
    fn folder(
        &self,
        root: &Arc<Root>,
        parent: Option<&Arc<Folder>>,
        entry: &DirEntry,
    ) -> Arc<Folder> {
        let path = entry.path().to_path_buf();
        let follows = self.walk.manner.follow_links;
        let found = follows.then(|| identity(&path).ok());
        Arc::new(Folder {
            root: root.clone(),
            parent: parent.cloned(),
            path,
            identity: found.flatten(),
            answers: OnceLock::new(),
        })
    }

    /// Has a directory and those on the way to it entered, by what other threads were told of them.
    fn go_to(&mut self, parent: &Arc<Folder>) {
        let root = &parent.root;
        let is_there = self
            .root
            .as_ref()
            .is_some_and(|(it, _)| Arc::ptr_eq(it, root));
        if !is_there {
            self.leave_root();
            let answers = root.answers.get().expect("a root that was begun").clone();
            let place = self.guide().adopt_root(&root.path, answers);
            self.root = Some((root.clone(), place));
        }
        let mut wanted: Vec<&Arc<Folder>> = parent.up().collect();
        wanted.reverse();
        let pairs = self.way.iter().zip(&wanted);
        let same = pairs
            .take_while(|(it, folder)| Arc::ptr_eq(&it.folder, folder))
            .count();
        self.leave_below(same);
        for folder in &wanted[same..] {
            let place = match folder.parent {
                None => self.with_place(|_, root| root.clone()),
                Some(_) => {
                    let answers = folder.answers.get().cloned().unwrap_or_default();
                    let name = told(folder.name());
                    self.with_place(|guide, parent| guide.adopt(parent, &name, answers))
                }
            };
            let folder = Arc::clone(folder);
            self.way.push(Entered { folder, place });
        }
    }

    /// What a call makes of the guide and of the last directory on the way, or else the root.
    fn with_place<R>(&mut self, call: impl FnOnce(&mut Guide, &Place) -> R) -> R {
        let root = self.root.as_ref().map(|(_, place)| place);
        let last = self.way.last().map(|it| &it.place).or(root);
        let guide = self.guide.as_mut().expect("a guide with a root");
        call(guide, last.expect("a root that was begun"))
    }

    /// Enters a directory, shows it, and puts what is in it on the stack.
    fn enter(
        &mut self,
        folder: &Arc<Folder>,
        mut entry: DirEntry,
        begun: Option<(Place, Option<Error>)>,
    ) -> WalkState {
        let manner = &self.walk.manner;
        let depth = entry.depth();
        if !manner.lists(depth) {
            return self.show(entry);
        }
        if let Some(device) = folder.root.device {
            match identity(&folder.path) {
                Ok(found) if found.0 == device => {}
                Ok(_) => return self.show(entry),
                Err(error) => {
                    let error = Error::Io(error).with_path(&folder.path);
                    let state = self.visitor.visit(Err(error));
                    return if state.is_quit() {
                        state
                    } else {
                        self.show(entry)
                    };
                }
            }
        }
        let mut listing = match Listing::read(&folder.path) {
            Ok(listing) => listing,
            Err(error) => {
                let state = self.show(entry);
                if state != WalkState::Continue {
                    return state;
                }
                let error = Error::of_walk(error, &folder.path, depth);
                return self.visitor.visit(Err(error));
            }
        };
        let error = self.enter_place(folder, &listing, begun);
        entry.set_error(error);
        let state = self.show(entry);
        if state != WalkState::Continue {
            return state;
        }
        let state = self.sort_out(folder, &mut listing, depth + 1);
        if state.is_quit() {
            return state;
        }
        while let Some(error) = listing.next_error() {
            let error = Error::of_walk(error, &folder.path, depth + 1);
            if self.visitor.visit(Err(error)).is_quit() {
                return WalkState::Quit;
            }
        }
        WalkState::Continue
    }

    /// Enters a directory; one that was begun as a root has its place.
    fn enter_place(
        &mut self,
        folder: &Arc<Folder>,
        listing: &Listing,
        begun: Option<(Place, Option<Error>)>,
    ) -> Option<Error> {
        let (place, error) = match (begun, &folder.parent) {
            (Some(begun), _) => {
                self.leave_below(0);
                begun
            }
            (None, parent) => {
                if let Some(parent) = parent {
                    self.go_to(parent);
                }
                let name = told(folder.name());
                self.with_place(|guide, parent| guide.enter(parent, &name, listing.names()))
            }
        };
        if let Some(answers) = place.answers() {
            folder.answers.get_or_init(|| answers);
        }
        let folder = folder.clone();
        self.way.push(Entered { folder, place });
        error
    }

    /// Puts the entries of a directory on the stack that are kept.
    fn sort_out(&mut self, folder: &Arc<Folder>, listing: &mut Listing, depth: usize) -> WalkState {
        let (mut work, mut together) = (Vec::new(), Vec::new());
        while let Some(listed) = listing.next() {
            if work.len() == AT_ONCE {
                if self.shared.is_over() {
                    return WalkState::Quit;
                }
                self.shared.put(work.drain(..).rev());
            }
            match self.kept(folder, listing, &listed, depth) {
                Ok(None) => {}
                Ok(Some((Some(child), entry))) => work.push(Work::Folder(child, entry)),
                Ok(Some((None, entry))) => {
                    together.push(entry);
                    if together.len() == TOGETHER {
                        work.push(Work::entries(std::mem::take(&mut together)));
                    }
                }
                Err(error) => {
                    if self.visitor.visit(Err(error)).is_quit() {
                        return WalkState::Quit;
                    }
                }
            }
        }
        if !together.is_empty() {
            work.push(Work::entries(together));
        }
        // What is listed first is taken first.
        work.reverse();
        self.shared.put(work.into_iter());
        WalkState::Continue
    }

    /// An entry of a directory, if it is kept, and the directory that it is.
    #[allow(clippy::type_complexity)]
    fn kept(
        &mut self,
        folder: &Arc<Folder>,
        listing: &Listing,
        listed: &Listed,
        depth: usize,
    ) -> Result<Option<(Option<Arc<Folder>>, DirEntry)>, Error> {
        let manner = &self.walk.manner;
        let is_link = listed.kind.is_ok_and(|kind| kind.is_symlink());
        let mut followed = None;
        if manner.follow_links && is_link {
            // An error without a depth, as programs know it from earlier versions of the original.
            let link = made(listing, listed, &folder.path, depth)?;
            let target = DirEntry::at(link.path(), depth, Follows::Shown);
            let entry = target.map_err(|error| Error::Io(error).with_path(link.path()))?;
            if entry.is_dir() {
                let above = folder.up().map(|it| (it.path.as_path(), it.identity));
                check_loop(&entry, above)?;
            }
            followed = Some(entry);
        }
        let kind_is_dir = listed.kind.is_ok_and(|kind| kind.is_dir());
        let asked = |size| Asked {
            name: listing.name(listed),
            told: listing.told(listed),
            dir: &folder.path,
            is_dir: followed.as_ref().map_or(kind_is_dir, DirEntry::is_dir),
            size,
        };
        let mut ignores = |size| {
            let asked = asked(size);
            self.with_place(|guide, place| guide.decide(place, &asked))
                .verdict
                == Verdict::Ignore
        };
        if listed.kind.is_ok() && ignores(None) {
            return Ok(None);
        }
        let is_too_large = |size| ignores(Some(size));
        let entry = match &followed {
            Some(entry) => entry.clone(),
            None => made(listing, listed, &folder.path, depth)?,
        };
        if manner.leaves_out(&entry, is_too_large)? {
            return Ok(None);
        }
        let is_dir = entry.is_dir();
        let child = is_dir.then(|| self.folder(&folder.root, Some(folder), &entry));
        Ok(Some((child, entry)))
    }
}
