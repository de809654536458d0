SECTIONS { high : > 0FFFEh }
