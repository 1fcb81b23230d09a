//! Which rules about paths the image of a tree shows.

use lafindry_reference::clauses::lists::ListsOnPath;
use lafindry_reference::embedding::left;
use lafindry_reference::generate::World;
use lafindry_reference::table::ContentModel;
use lafindry_reference::tree::Element;
use lafindry_reference::MOST_MEMBERS;

/// What the image of a tree shows; each is true where some element shows it.
#[derive(Debug, Default, Clone, Copy, PartialEq, Eq)]
pub struct Traits {
    /// Two members of a sequence have paths through one list, whose item they
    /// share.
    pub shared_list: bool,
    /// Members of a sequence stand in another order in the image.
    pub permuted_members: bool,
    /// A list with items has a path through two lists or more.
    pub later_list: bool,
    /// A list with items is an item of a list.
    pub list_in_list: bool,
    /// A choice has a path of two steps or more.
    pub long_choice: bool,
    /// An optional choice holds nothing.
    pub empty_optional: bool,
    /// An optional choice holds a member.
    pub full_optional: bool,
    /// An optional choice that holds nothing has paths with steps before their
    /// first choice, so that elements are built above the one left empty.
    pub nothing_below: bool,
    /// An optional choice holds another one at some depth.
    pub nested_optional: bool,
    /// An optional choice has as many members as there may be.
    pub sixteen_optional: bool,
    /// A needed choice has a path through an optional choice.
    pub through_optional: bool,
    /// The path that is built for a choice of either kind leaves a list before
    /// its first choice.
    pub list_before: bool,
    /// It leaves a list between its first and its last choice.
    pub list_between: bool,
    /// It leaves a list after its last choice.
    pub list_after: bool,
    /// It leaves two lists or more.
    pub several_lists: bool,
    /// An optional choice that holds nothing has a list before its first
    /// choice, so that the one left empty stands behind it.
    pub nothing_behind_list: bool,
}

impl Traits {
    /// What the image of a world's tree shows.
    pub fn of(world: &World) -> Traits {
        let mut traits = Traits::default();
        traits.add(world, &world.tree);
        traits
    }

    /// Adds what the image of an element shows.
    fn add(&mut self, world: &World, element: &Element) {
        let embedded = &world.embedded;
        let paths = paths_of(world, element.element_type);
        match embedded.model_of(element) {
            ContentModel::Sequence(_) => {
                let pairs = || (1..paths.len()).flat_map(|b| (0..b).map(move |a| (a, b)));
                self.shared_list |= pairs().any(|(a, b)| shares_list(&paths[a], &paths[b]));
                self.permuted_members |= pairs().any(|(a, b)| paths[a].steps > paths[b].steps);
            }
            ContentModel::List(_) if !element.children.is_empty() => {
                self.later_list |= paths[0].leaves_list.iter().filter(|&&list| list).count() > 1;
                let filled = |item: &Element| embedded.model_of(item).is_list() && !item.children.is_empty();
                self.list_in_list |= element.children.iter().any(filled);
            }
            ContentModel::Choice(_) => {
                self.long_choice |= paths.iter().any(|path| path.steps.len() > 1);
                self.through_optional |= paths.iter().any(|path| path.leaves_optional.contains(&true));
                self.add_lists(world, element);
            }
            ContentModel::OptionalChoice(_) => {
                self.add_optional(world, element, &paths);
                self.add_lists(world, element);
            }
            _ => {}
        }
        element.children.iter().for_each(|child| self.add(world, child));
    }

    /// Adds what the image of an optional choice shows.
    fn add_optional(&mut self, world: &World, element: &Element, paths: &[Path]) {
        let is_empty = element.children.is_empty();
        self.empty_optional |= is_empty;
        self.full_optional |= !is_empty;
        // The first choice on a path of an optional choice is an optional one.
        self.nothing_below |= is_empty && !paths[0].leaves_optional[0];
        self.nested_optional |= element.children.iter().any(|child| holds_optional(world, child));
        self.sixteen_optional |= paths.len() == MOST_MEMBERS;
    }

    /// Adds what the image of a choice of either kind shows of lists.
    fn add_lists(&mut self, world: &World, choice: &Element) {
        let lists = ListsOnPath::of(&world.embedded.left_by(choice));
        self.list_before |= lists.before > 0;
        self.list_between |= lists.between > 0;
        self.list_after |= lists.after > 0;
        self.several_lists |= lists.count() > 1;
        self.nothing_behind_list |= choice.children.is_empty() && lists.before > 0;
    }
}

/// Whether an element is an optional choice or holds one at some depth.
fn holds_optional(world: &World, element: &Element) -> bool {
    world.embedded.model_of(element).is_optional()
        || element.children.iter().any(|child| holds_optional(world, child))
}

/// The steps of a path, and which of them leave a list or an optional choice.
struct Path {
    steps: Vec<u8>,
    leaves_list: Vec<bool>,
    leaves_optional: Vec<bool>,
}

/// The paths of a source type.
fn paths_of(world: &World, t: u8) -> Vec<Path> {
    let target = &world.embedded.target;
    let map = &world.embedded.embedding.maps[t as usize];
    let path = |steps: &Vec<u8>| {
        let left = left(target, map.target, steps);
        Path {
            steps: steps.clone(),
            leaves_list: left.iter().map(|model| model.is_list()).collect(),
            leaves_optional: left.iter().map(|model| model.is_optional()).collect(),
        }
    };
    map.paths.iter().map(|path_map| path(&path_map.steps)).collect()
}

/// Whether the common beginning of two paths leaves a list.
fn shares_list(a: &Path, b: &Path) -> bool {
    let common = a.steps.iter().zip(&b.steps).take_while(|(a, b)| a == b).count();
    a.leaves_list[..common].contains(&true)
}
