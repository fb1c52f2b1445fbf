//! The library and the model side by side: one call to both, then everything compared.

use crate::call::{Call, Slice};
use crate::mistakes::Mistake;
use model::{Answer, Controller, Image, IMAGE_LENGTH};

/// What the model was lent: a state, or bytes that are no state's image.
#[derive(Clone, Copy)]
pub enum Lent {
    State(Controller),
    NoImage(Image),
}

impl Lent {
    fn image(&self) -> Image {
        match self {
            Lent::State(state) => state.image(),
            Lent::NoImage(bytes) => *bytes,
        }
    }
}

#[derive(Clone, Copy, PartialEq, Debug)]
pub enum Difference {
    Returned { library: u32, model: u32 },
    LentByte { at: usize, library: u8, model: u8 },
    ImageByte { at: usize, library: u8, model: u8 },
}

/// What one call came to, where both sides agree.
#[derive(Clone, Copy)]
pub struct Outcome {
    pub returned: u32,
    pub slice: Slice,
}

#[derive(Clone)]
pub struct Pair {
    pub library: Image,
    pub model: Lent,
    mistake: Option<Mistake>,
}

impl Pair {
    /// Both fresh. With a mistake the model is wrong on purpose.
    pub fn fresh(mistake: Option<Mistake>) -> Pair {
        Pair { library: [0; IMAGE_LENGTH], model: Lent::State(Controller::fresh()), mistake }
    }

    pub fn state(&self) -> Option<&Controller> {
        match &self.model {
            Lent::State(state) => Some(state),
            Lent::NoImage(_) => None,
        }
    }

    pub fn call(&mut self, call: Call) -> Result<Outcome, Difference> {
        if let Call::Lend(image) = call {
            self.library = image;
            let state = self.mistake.map_or_else(|| Controller::from_image(&image), |mistake| mistake.state_of(&image));
            self.model = state.map_or(Lent::NoImage(image), Lent::State);
        }
        let (mut of_library, mut of_model) = (call.slice(), call.slice());
        let library = call.to_library(&mut self.library, &mut of_library);
        let model = self.call_model(call, &mut of_model).packed();
        if library != model {
            return Err(Difference::Returned { library, model });
        }
        if let Some((at, library, model)) = first_difference(&of_library, &of_model) {
            return Err(Difference::LentByte { at, library, model });
        }
        if let Some((at, library, model)) = first_difference(&self.library, &self.model.image()) {
            return Err(Difference::ImageByte { at, library, model });
        }
        Ok(Outcome { returned: library, slice: of_library })
    }

    fn call_model(&mut self, call: Call, slice: &mut Slice) -> Answer {
        match (&mut self.model, call) {
            (_, Call::Fresh) => {
                self.model = Lent::State(Controller::fresh());
                Answer::Done(0)
            }
            (Lent::NoImage(_), Call::Lend(_)) => Answer::Done(0),
            (Lent::NoImage(_), _) => Answer::BadNumber,
            (Lent::State(state), _) => match self.mistake {
                None => call.to_model(state, slice),
                Some(mistake) => mistake.call(call, state, slice),
            },
        }
    }
}

fn first_difference(library: &[u8], model: &[u8]) -> Option<(usize, u8, u8)> {
    if library == model {
        return None;
    }
    let at = library.iter().zip(model).position(|(a, b)| a != b)?;
    Some((at, library[at], model[at]))
}
