"""What a person sees and writes: lines, bars, an editor, and words that a shell completes."""
