//! What the header forbids doesn't compile. Each example is one that the compiler must reject.

/// A builder is consumed by `build`.
///
/// ```compile_fail,E0382
/// let mut builder = ignore_proved::gitignore::GitignoreBuilder::new("").unwrap();
/// let rules = builder.build();
/// builder.add_line(None, "a");
/// ```
///
/// Rules that were dropped aren't asked, nor dropped once more.
///
/// ```compile_fail,E0382
/// let rules = ignore_proved::gitignore::Gitignore::new(".gitignore").unwrap();
/// drop(rules);
/// drop(rules);
/// ```
///
/// A value isn't copied, nor cloned.
///
/// ```compile_fail,E0599
/// let rules = ignore_proved::gitignore::Gitignore::new(".gitignore").unwrap();
/// let other = rules.clone();
/// ```
///
/// ```compile_fail,E0599
/// let matcher = ignore_proved::WalkBuilder::new(".").unwrap().build_matcher().unwrap();
/// let other = matcher.clone();
/// ```
///
/// It may go to another thread, but two don't have it at once.
///
/// ```
/// let rules = ignore_proved::gitignore::GitignoreBuilder::new("").unwrap().build().unwrap();
/// let asked = std::thread::spawn(move || rules.matched("a", false).is_ok());
/// assert!(asked.join().unwrap());
/// ```
///
/// ```compile_fail,E0277
/// let rules = ignore_proved::gitignore::Gitignore::new(".gitignore").unwrap();
/// std::thread::scope(|scope| { scope.spawn(|| rules.matched("a", false).is_ok()); });
/// ```
///
/// One call at a time has a matcher.
///
/// ```compile_fail,E0499
/// let mut matcher = ignore_proved::WalkBuilder::new(".").unwrap().build_matcher().unwrap();
/// let (one, two) = (&mut matcher, &mut matcher);
/// one.forget("a").unwrap();
/// two.forget("a").unwrap();
/// ```
///
/// Handles are private, and so is what makes them.
///
/// ```compile_fail,E0603
/// use ignore_proved::library::Tree;
/// ```
///
/// ```compile_fail,E0451
/// let matcher = ignore_proved::WalkBuilder::new(".").unwrap().build_matcher().unwrap();
/// let ignore_proved::IncrementalIgnore { matcher: stolen, .. } = matcher;
/// ```
pub struct Rejected;
