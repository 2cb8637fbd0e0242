//! The words of the command line.
use crate::anchor::Anchor;
use crate::config;
use crate::fault::{Fault, WORDS};
use crate::forms::{self, Filter, Form, Style, Template, Wrap};
use crate::man;
use crate::memory::Bytes;
use crate::output::say;
use crate::packing::Ways;
use crate::scale::Scale;
use crate::search::Limits;
use clap::error::{ContextKind, ErrorKind};
use clap::{ArgMatches, CommandFactory, FromArgMatches, Parser, ValueEnum};
use clap_complete::Shell;
use guillotiere::sheet::{Allowed, SheetOptions};
use guillotiere::size2;
use std::path::PathBuf;
use std::time::Duration;

// Of a side of a sheet.
const GREATEST: i32 = 65536;

const USAGE: &str = "guillotiere-sheet [OPTIONS] FOLDER OUT";

const AFTER: &str = "\
Example: guillotiere-sheet icons game/icons --trim --power-of-two

Status: 0 written; 1 a file can't be read or written; 2 wrong usage; 3 the pictures don't fit; 4 written, and some are left out; \
5 with --check, the files aren't up to date; 130 ended by Ctrl-C.";

/// How the pictures of the sheets are called.
#[derive(Clone, Copy, Debug, PartialEq, Eq, ValueEnum)]
pub enum Names {
    /// OUT.png, or OUT-0.png, OUT-1.png ..
    Fixed,
    /// By what they have, as OUT.0123456789abcdef.png: none takes the place of an old one, which stays until the run after the next
    Content,
}

/// The form of the sheets' pictures.
#[derive(Clone, Copy, Debug, PartialEq, Eq, ValueEnum)]
pub enum Image {
    Png,
    /// Without loss, by the program cwebp of libwebp
    Webp,
}

impl Image {
    /// How a file's name ends.
    pub fn ending(self) -> &'static str {
        match self {
            Image::Png => ".png",
            Image::Webp => ".webp",
        }
    }
}

/// Packs the pictures of a folder into sheets that engines load.
#[derive(Parser, Clone, Debug)]
#[command(name = "guillotiere-sheet", version, override_usage = USAGE, after_help = AFTER)]
pub struct Words {
    /// The folder whose pictures (.png, .jpg, .jpeg, .webp, .gif, .bmp, .tif, .tiff, .tga), with those of its subfolders, are the sprites;
    /// a name is a path in it
    pub folder: PathBuf,
    /// OUT.png is the sheet, with the data file of --form next to it; with --pages the sheets are OUT-0.png, OUT-1.png ..
    pub out: PathBuf,
    /// Takes options from FILE in TOML, whose keys are those of here without --, as `trim = true` and `size = [512, 512]`; an option of the
    /// command line takes the place of the file's
    #[arg(long, value_name = "FILE")]
    pub config: Option<PathBuf>,
    /// What is written next to the pictures
    #[arg(long, value_enum, default_value_t = Form::JsonHash)]
    pub form: Form,
    /// Writes what a template of Tera says: FILE is NAME.ENDING.tera, or NAME.each.ENDING.tera for a file for each sheet, or has sprite or
    /// animation in place of each
    #[arg(long, value_name = "FILE", conflicts_with = "form")]
    pub template: Option<PathBuf>,
    /// With --form libgdx and libgdx-new: how the engine reads between pixels; nearest for pixel art
    #[arg(long, value_enum, default_value_t = Filter::Linear)]
    pub filter: Filter,
    /// With --form libgdx and libgdx-new: in which directions the engine repeats the sheet
    #[arg(long, value_enum, default_value_t = Wrap::None)]
    pub wrap: Wrap,
    /// How the pictures of the sheets are called
    #[arg(long, value_enum, default_value_t = Names::Fixed)]
    pub names: Names,
    /// The form of the sheets' pictures; with webp OUT.webp is the sheet
    #[arg(long, value_enum, default_value_t = Image::Png)]
    pub image: Image,
    /// Leaves out the transparent borders of the pictures
    #[arg(long)]
    pub trim: bool,
    /// With --trim: pixels with an alpha up to N, of 255, count as transparent
    #[arg(long, value_name = "N", default_value_t = 0, requires = "trim")]
    pub trim_threshold: u8,
    /// Repeats the outermost pixels of each sprite N times around it
    #[arg(long, value_name = "N", default_value_t = 0)]
    pub extrude: u16,
    /// Gives transparent pixels up to N pixels around what is seen its colours, so that filters show no dark fringe; 1 with --trim, else 0
    #[arg(long, value_name = "N")]
    pub bleed: Option<u16>,
    /// Multiplies red, green and blue by alpha
    #[arg(long)]
    pub premultiply: bool,
    /// Keeps all pixel values, whatever the files say about colours; the sheets say nothing about these. This is the default
    #[arg(long, conflicts_with = "manage_colours")]
    pub keep_numbers: bool,
    /// Where all files say the same about colours, the sheets say it too; else gAMA is applied, and each picture that changes is named
    #[arg(long)]
    pub manage_colours: bool,
    /// Also sheets of smaller pictures: 1,0.5 writes OUT and OUT@0.5x
    #[arg(long, value_name = "S,..", value_delimiter = ',', default_value = "1")]
    pub scale: Vec<Scale>,
    /// At most N sheets, numbered even if there is only one; without this option there is one, without a number
    #[arg(long, value_name = "N", value_parser = clap::value_parser!(u32).range(1..))]
    pub pages: Option<u32>,
    /// With --pages: one sheet has all pictures of a folder, where one of the greatest size takes them; those in FOLDER itself lie anywhere
    #[arg(long)]
    pub group: bool,
    /// Also tries smaller sheets without guillotine cuts, in which no sprite is turned; of several sheets for the last one
    #[arg(long)]
    pub dense: bool,
    /// Sprites may lie turned by 90 degrees
    #[arg(long)]
    pub turn: bool,
    /// At least N pixels between two sprites, and without --border between a sprite and the border
    #[arg(long, value_name = "N", default_value_t = 1)]
    pub padding: u16,
    /// At least N pixels between a sprite and the border, where that isn't the padding
    #[arg(long, value_name = "N", conflicts_with = "align")]
    pub border: Option<u16>,
    /// Each side of a sheet is a power of two
    #[arg(long)]
    pub power_of_two: bool,
    /// Sheets are squares, which is the default
    #[arg(long, conflicts_with = "power_of_two")]
    pub square: bool,
    /// A sheet has this size
    #[arg(long, num_args = 2, value_names = ["W", "H"], conflicts_with_all = ["power_of_two", "square", "greatest", "least"])]
    pub size: Option<Vec<i32>>,
    /// A sheet has this width, and a height up to the greatest side
    #[arg(long, value_name = "W", conflicts_with_all = ["power_of_two", "square", "size"])]
    pub width: Option<i32>,
    /// The greatest side of a sheet
    #[arg(long, value_name = "N", default_value_t = 4096)]
    pub greatest: i32,
    /// The least side of a square
    #[arg(long, value_name = "N", conflicts_with_all = ["power_of_two", "width"], default_value_t = 1)]
    pub least: i32,
    /// Each place, with the padding to its left and above it, begins at multiples of W and H
    #[arg(long, num_args = 2, value_names = ["W", "H"])]
    pub align: Option<Vec<i32>>,
    /// Tries N changes of the order for a smaller sheet; where one sheet takes all, each smaller one is reported
    #[arg(long, value_name = "N", default_value_t = 0)]
    pub effort: u32,
    /// Tries changes of the order for N seconds at most, divided between the scales; with --effort it ends where that does
    #[arg(long, value_name = "N", value_parser = seconds)]
    pub time: Option<Duration>,
    /// Ctrl-C ends the tries of --effort or --time, and what was found is written
    #[arg(long)]
    pub keep_best: bool,
    /// Makes the pictures of the sheets as small as it can; it takes longer
    #[arg(long)]
    pub compress: bool,
    /// Where the random changes begin
    #[arg(long, value_name = "N", default_value_t = 0)]
    pub seed: u64,
    /// Writes the sheets even where they don't take all pictures, and names those that are left out
    #[arg(long)]
    pub leave_out: bool,
    /// Leaves out files and folders whose name or path in FOLDER is like PATTERN, as '*_old.png' or 'raw/**'
    #[arg(long, value_name = "PATTERN")]
    pub exclude: Vec<String>,
    /// The pictures and the sheets may take so many bytes, at four a pixel: a number, or one of K, M or G; half of the machine's memory
    #[arg(long, value_name = "N")]
    pub memory: Option<Bytes>,
    /// The point of each picture that lies where the engine puts it, in parts of its width and height from the upper left corner,
    /// as 0.5,1; FOLDER/anchors.txt can have lines PATTERN X Y for single pictures
    #[arg(long, value_name = "X,Y", allow_hyphen_values = true)]
    pub anchor: Option<Anchor>,
    /// Pictures whose names end in numbers make no animations
    #[arg(long)]
    pub no_animations: bool,
    /// Files like PATTERN are frames, whatever numbers there are; without it frames count from 0 or 1 with no gap
    #[arg(long, value_name = "PATTERN", conflicts_with = "no_animations")]
    pub animations: Vec<String>,
    /// How many pictures of an animation are shown in a second; FOLDER/animations.txt can have lines PATTERN N for single animations, with
    /// `once` behind N for one that isn't repeated
    #[arg(long, value_name = "N", default_value_t = 10.0, value_parser = frame_rate)]
    pub frame_rate: f64,
    /// Names without .png, .jpg and the like
    #[arg(long)]
    pub drop_extension: bool,
    /// With --form css: OUT.html too, which shows each sprite
    #[arg(long)]
    pub page: bool,
    /// Keeps running, and writes the sheets again whenever the folder changes
    #[arg(long)]
    pub watch: bool,
    /// Removes the files of earlier runs of the same OUT and form that aren't written any more
    #[arg(long, conflicts_with = "check")]
    pub clean: bool,
    /// Writes to FILE, for make and ninja, which files and folders the record is made from
    #[arg(long, value_name = "FILE", conflicts_with = "check")]
    pub depfile: Option<PathBuf>,
    /// Prints the manual page, for man(1)
    #[arg(long, exclusive = true)]
    pub man: bool,
    /// Prints what a shell needs to complete the words
    #[arg(long, value_name = "SHELL", value_enum, exclusive = true)]
    pub completions: Option<Shell>,
    /// Writes nothing, and says by its status whether the files are as they would be written
    #[arg(long, conflicts_with = "watch")]
    pub check: bool,
}

fn seconds(text: &str) -> Result<Duration, String> {
    let seconds = text
        .parse()
        .ok()
        .filter(|seconds| (0.0..=1e6).contains(seconds));
    let seconds: f64 = seconds.ok_or("a time is a number of seconds up to 1000000")?;
    Ok(Duration::from_secs_f64(seconds))
}

/// Pictures a second.
pub fn frame_rate(text: &str) -> Result<f64, String> {
    let rate = text
        .parse()
        .ok()
        .filter(|rate| (0.001..=1000.0).contains(rate));
    rate.ok_or_else(|| "a frame rate is from 0.001 to 1000".to_string())
}

impl Words {
    /// How the sprites are packed; they come with what is repeated around them.
    pub fn options(&self) -> SheetOptions {
        let greatest = self.greatest;
        let allowed = match (&self.size, self.width) {
            (Some(size), _) => Allowed::One(size2(size[0], size[1])),
            (None, Some(width)) => Allowed::Heights { width, greatest },
            (None, None) if self.power_of_two => Allowed::Powers { greatest },
            (None, None) => Allowed::Squares {
                least: self.least,
                greatest,
            },
        };
        SheetOptions {
            padding: self.padding,
            alignment: self
                .align
                .as_ref()
                .map_or(size2(1, 1), |sides| size2(sides[0], sides[1])),
            turn: self.turn,
            effort: self.effort,
            seed: self.seed,
            ..SheetOptions::new(allowed)
        }
    }

    /// All that is asked of the packing.
    pub fn ways(&self) -> Ways {
        let border = self.border.unwrap_or(self.padding);
        Ways {
            options: self.options(),
            is_dense: self.dense,
            limit: self.limit(),
            inset: i32::from(border) - i32::from(self.padding),
        }
    }

    /// How far colours go into transparent pixels.
    pub fn bleed(&self) -> u32 {
        self.bleed.map_or(u32::from(self.trim), u32::from)
    }

    /// When the search ends.
    pub fn limits(&self) -> Limits {
        Limits {
            time: self.time.map(|time| time / self.scale.len() as u32),
            keeps_best: self.keep_best,
        }
    }

    /// What pictures and sheets may take.
    pub fn memory(&self) -> Bytes {
        self.memory.unwrap_or_else(Bytes::usual)
    }

    /// At most so many sheets.
    pub fn limit(&self) -> usize {
        self.pages.map_or(1, |pages| pages as usize)
    }

    /// The name of the files without what comes before and after it.
    pub fn stem(&self) -> &str {
        self.out
            .file_name()
            .and_then(|name| name.to_str())
            .unwrap_or("")
    }

    /// That of the form, or of the template.
    pub fn form_name(&self) -> String {
        let name = self.template.as_ref().and_then(|path| path.file_name());
        match (name, self.form.to_possible_value()) {
            (None, Some(form)) => form.get_name().to_string(),
            (name, _) => name.unwrap_or_default().to_string_lossy().into_owned(),
        }
    }

    /// The folder that the files are written to.
    pub fn target(&self) -> PathBuf {
        match self.out.parent() {
            Some(folder) if folder.as_os_str().is_empty() => PathBuf::from("."),
            Some(folder) => folder.to_path_buf(),
            None => PathBuf::from("/"),
        }
    }

    /// What no single word shows.
    fn check(&mut self) -> Result<(), Fault> {
        if self.template.is_some() {
            self.form = Form::Template;
        }
        let ending = self.image.ending();
        if let Some(name) = self.out.to_str().and_then(|out| out.strip_suffix(ending)) {
            self.out = PathBuf::from(name);
        }
        // A path's own parts pass over a `.` at its end.
        let is_name = |out: &str| {
            let last = out.rsplit(std::path::is_separator).next();
            !["", ".", ".."].contains(&last.unwrap_or(""))
        };
        let fault = if self.out.to_str().is_none() {
            Some("OUT isn't UTF-8")
        } else if !self.out.to_str().map_or(false, is_name) {
            Some("OUT is the name of the sheet, without its ending")
        } else if self.stem().chars().any(char::is_control) {
            Some("OUT has a control character")
        } else if self.keep_best && self.effort == 0 && self.time.is_none() {
            Some("--keep-best needs --effort or --time")
        } else if self.page && self.form != Form::Css {
            Some("--page needs --form css")
        } else if !self.has_filter() && (self.filter, self.wrap) != (Filter::Linear, Wrap::None) {
            Some("--filter and --wrap need --form libgdx or libgdx-new")
        } else if self.turn && self.form == Form::Css && self.scale.len() > 1 && !self.power_of_two
        {
            Some("--turn with --form css and several scales needs --power-of-two: browsers blur turned sprites of other sheets")
        } else if self.turn && forms::no_turn(self.form).is_some() {
            forms::no_turn(self.form)
        } else {
            self.fault_of_image().or_else(|| self.fault_of_sides())
        };
        if let Some(line) = fault {
            return Err(Fault::new(WORDS, line));
        }
        for (place, scale) in self.scale.iter().enumerate() {
            if self.scale[..place].contains(scale) {
                let line = format!("the scale {} is asked for twice", scale);
                return Err(Fault::new(WORDS, line));
            }
        }
        Ok(())
    }

    fn fault_of_image(&self) -> Option<&'static str> {
        match self.image {
            Image::Png => None,
            Image::Webp if self.manage_colours => {
                Some("--image webp can't be used with --manage-colours: a WebP has no place for what it tells")
            }
            Image::Webp if !forms::reads_webp(self.form) => {
                Some("--image webp can't be used with this form: its engine reads no WebP")
            }
            Image::Webp => None,
        }
    }

    fn has_filter(&self) -> bool {
        matches!(self.form, Form::Libgdx | Form::LibgdxNew)
    }

    /// What is written next to the pictures.
    pub fn style(&self) -> Result<Style, Fault> {
        let template = self.template.as_deref().map(Template::read).transpose()?;
        Ok(Style {
            form: self.form,
            template,
            filter: self.filter,
            wrap: self.wrap,
            names: self.names,
            with_page: self.page,
        })
    }

    fn fault_of_sides(&self) -> Option<&'static str> {
        let mut sides: Vec<i32> = self.size.iter().flatten().copied().collect();
        sides.extend(self.width);
        let alignment = self.align.iter().flatten();
        if sides.iter().chain(alignment).any(|side| *side < 1) {
            return Some("a side of --size, --width or --align is below 1");
        }
        if self.least < 1 || self.greatest < self.least {
            return Some("--least is below 1, or --greatest below it");
        }
        let is_great = self.greatest > GREATEST || sides.iter().any(|side| *side > GREATEST);
        is_great.then_some("a side of a sheet is above 65536")
    }
}

/// The words, or what is told and how the program ends.
pub fn words(given: impl IntoIterator<Item = std::ffi::OsString>) -> Result<Words, Fault> {
    let refused = |error: clap::Error| match error.kind() {
        ErrorKind::DisplayHelp | ErrorKind::DisplayVersion => {
            let told = Fault {
                status: 0,
                lines: Vec::new(),
            };
            say(&error.to_string()).err().unwrap_or(told)
        }
        ErrorKind::MissingRequiredArgument if !one_line(&error).contains(" --") => {
            Fault::new(WORDS, "FOLDER and OUT are required; see --help")
        }
        _ => Fault::new(WORDS, one_line(&error)),
    };
    let given = config::with_file(given.into_iter().collect(), &Words::command(), one_line)?;
    let matches = Words::command()
        .try_get_matches_from(given)
        .map_err(refused)?;
    if let Some(text) = printed(&matches) {
        let told = Fault {
            status: 0,
            lines: Vec::new(),
        };
        return Err(say(&text).err().unwrap_or(told));
    }
    let mut words = Words::from_arg_matches(&matches).map_err(refused)?;
    words.check()?;
    Ok(words)
}

// What is asked for instead of sheets.
fn printed(matches: &ArgMatches) -> Option<String> {
    let mut command = Words::command();
    if matches.get_flag("man") {
        return Some(man::page(&command, USAGE, AFTER));
    }
    let shell = matches.get_one::<Shell>("completions")?;
    let mut text = Vec::new();
    clap_complete::generate(*shell, &mut command, "guillotiere-sheet", &mut text);
    String::from_utf8(text).ok()
}

// The first paragraph of what the parser tells, and what it takes to be meant, as one line.
fn one_line(error: &clap::Error) -> String {
    let text = error.to_string();
    let first = text.split("\n\n").next().unwrap_or(&text);
    let line = first.split_whitespace().collect::<Vec<_>>().join(" ");
    let line = line.trim_start_matches("error: ");
    let meant = [ContextKind::SuggestedArg, ContextKind::SuggestedValue];
    match meant.iter().find_map(|kind| error.get(*kind)) {
        Some(meant) => format!("{}; did you mean {}?", line, meant),
        None => line.to_string(),
    }
}
